"""What makes the pictures of pages, of what commands show."""
