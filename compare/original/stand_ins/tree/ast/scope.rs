// Stands in for the analysis's scope. What can't be seen: all of it; a book names each of its parts by number.
