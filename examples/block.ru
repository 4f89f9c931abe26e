# A new book arrives.
PREFIX book: <http://library.example/>
PREFIX author: <http://authors.example/>
PREFIX dc: <http://purl.org/dc/terms/>
INSERT DATA { book:persuasion dc:creator author:austen }
----
# The next request says it again, and says of each author what she is.
PREFIX book: <http://library.example/>
PREFIX author: <http://authors.example/>
PREFIX dc: <http://purl.org/dc/terms/>
PREFIX foaf: <http://xmlns.com/foaf/0.1/>
INSERT DATA {
  book:persuasion dc:creator author:austen .
  author:austen a foaf:Person ; foaf:made book:emma , book:persuasion .
  author:eliot a foaf:Person .
}
----
# Who created a book has made it.
PREFIX dc: <http://purl.org/dc/terms/>
PREFIX foaf: <http://xmlns.com/foaf/0.1/>
INSERT { ?author foaf:made ?book } WHERE { ?book dc:creator ?author }
----
# The creators become makers.
PREFIX dc: <http://purl.org/dc/terms/>
PREFIX foaf: <http://xmlns.com/foaf/0.1/>
DELETE { ?book dc:creator ?author } INSERT { ?book foaf:maker ?author } WHERE { ?book dc:creator ?author }
----
# This one uses a prefix that it doesn't declare, so it is refused and changes nothing.
INSERT DATA { book:emma a book:Novel }
