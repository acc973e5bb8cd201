"""What tools/dev/package puts into packages: files, manual pages, completions, and what is known of their proof."""
