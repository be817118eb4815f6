module Admin
  class PostsController < ApplicationController
    def self.show(params)
      post = Post.new(params[:id].to_i, "Hello")
      return "none" if post.id.zero?
      title(post.label) + " " + APIStatus::OK
    end
  end
end
