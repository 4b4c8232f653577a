// Stands in for the analysis of faulty source. What can't be seen: all of it; a book that was read has no such fault.
