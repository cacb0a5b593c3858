"""What of a configuration would be refused, and what in it nobody can have meant, each with the form that works."""
