"""What the proxy knows of documents: which are judged, their versions, and the list of those that aren't
judged."""
