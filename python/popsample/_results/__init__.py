"""What the functions return, and how it is converted and drawn."""
