"""What tools/merge is made of: the sections of a placed design, and the vias and nets of a grid in the words of its readers."""
