"""What `drive` does in each view of the page."""
