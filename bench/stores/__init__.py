"""What a measurement asks of our store and of others in one form: a module for each set of questions."""
