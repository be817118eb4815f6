class ApplicationController
  def self.title(name)
    "#{name} | Blog"
  end
end
