"""The words of docs/ for what the program writes (tools/why), and the lists of that from the sources."""
