-module(unbound).
-export([f/1]).

f(X) ->
    g:h(X, Y),
    k(Y, Z).

k(A, B) -> g:i(A, B).
