"""What a request does, by its method, path and query, and for some requests by the body."""
