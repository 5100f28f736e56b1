"""What scripts/from-cedar and scripts/to-cedar are made of: readers and writers of Cedar's forms.
Nothing here is proved."""
