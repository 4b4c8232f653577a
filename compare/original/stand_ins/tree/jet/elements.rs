// Stands in for the Elements jets, which are the core ones under another name here. What can't be seen: all others.
