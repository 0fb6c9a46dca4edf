-module(pairs).
-export([zip/2, swap/1, find/2, value/2]).

zip([], _) -> [];
zip(_, []) -> [];
zip([A | As], [B | Bs]) -> [{A, B} | zip(As, Bs)].

swap([]) -> [];
swap([{A, B} | Pairs]) -> [{B, A} | swap(Pairs)].

% The value of the first pair with this key.
find(_, []) -> none;
find(Key, [{Key, Value} | _]) -> {ok, Value};
find(Key, [_ | Pairs]) -> find(Key, Pairs).

value(Key, Pairs) ->
    {ok, Value} = find(Key, Pairs),
    Value.
