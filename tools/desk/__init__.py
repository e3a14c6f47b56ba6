"""What the tools at the desk share. They decide no lamp: each lamp comes from the proved programs, and what is worked out here is advice."""
