"""Wrong definitions, each of which has to break a worked value."""
