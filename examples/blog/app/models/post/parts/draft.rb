class Post::Draft
end
