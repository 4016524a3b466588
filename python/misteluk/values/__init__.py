"""What a store's user says and is told."""
