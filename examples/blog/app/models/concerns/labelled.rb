module Labelled
  def label
    "#{id}: #{title.upcase}"
  end
end
