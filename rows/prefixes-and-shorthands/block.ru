PREFIX : <http://e/>
insert data { :a a :b , :c ; :p :d ; . } ;
PREFIX : <http://f/>
INSERT DATA { :a a :b }
