"""The cases. A group is a function that yields pairs: a case's name, and what is wrong with it or None."""
