"""One module for each measurement of the catalog: `options` says what it takes, `measure` does it."""
