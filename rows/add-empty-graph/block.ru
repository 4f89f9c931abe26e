PREFIX ex: <http://e/>
ADD ex:h TO ex:k
