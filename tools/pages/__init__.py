"""The pages of docs/ and man/, beside the tree."""
