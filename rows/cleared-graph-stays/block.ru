CREATE GRAPH <x:g>
----
INSERT DATA { <x:a> <x:p> 1 } ;
CLEAR ALL
