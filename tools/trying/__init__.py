"""The trials of the page for planners and students, by what they try; tools/try-page makes them."""
