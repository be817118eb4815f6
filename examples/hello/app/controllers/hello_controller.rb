class HelloController
  def self.index(params)
    "hi"
  end
end
