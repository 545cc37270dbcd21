<http://example.org/ann> <http://xmlns.com/foaf/0.1/knows> _:e1 .
<http://example.org/ann> <http://xmlns.com/foaf/0.1/knows> _:e3 .
_:e1 <http://xmlns.com/foaf/0.1/knows> _:e3 .
_:e1 <http://xmlns.com/foaf/0.1/name> "Bob" .
_:e3 <http://xmlns.com/foaf/0.1/knows> _:e1 .
_:e3 <http://xmlns.com/foaf/0.1/name> "Carol" .
