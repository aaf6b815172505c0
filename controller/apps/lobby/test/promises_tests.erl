%% Tests settings whose possible values are known.
-module(promises_tests).

-include_lib("eunit/include/eunit.hrl").

to(Value) -> fun(_) -> Value end.

after_(Steps) ->
    promises:possible(key, lists:foldl(fun(Step, Acc) -> Step(Acc) end, promises:given(key, open, promises:new()), Steps)).

asked(Number, Value) -> fun(P) -> promises:asked(key, Number, to(Value), P) end.
answered(Number) -> fun(P) -> promises:answered(key, Number, P) end.

what_is_asked_for_may_hold_test() ->
    ?assertEqual([open], after_([])),
    ?assertEqual([closed, open], after_([asked(1, closed)])).

what_is_answered_holds_test() ->
    ?assertEqual([closed], after_([asked(1, closed), answered(1)])),
    ?assertEqual([closed], after_([asked(1, closed), asked(2, closed), answered(1)])),
    ?assertEqual([closed], after_([asked(1, closed), asked(2, closed), answered(2), answered(1)])).

until_the_contrary_is_asked_for_test() ->
    ?assertEqual([closed, open], after_([asked(1, closed), answered(1), asked(2, open)])),
    ?assertEqual([closed, open], after_([asked(1, closed), asked(2, open), answered(1)])),
    ?assertEqual([open], after_([asked(1, closed), asked(2, open), answered(2), answered(1)])).

a_change_of_each_possible_value_test() ->
    Add = fun(N) -> fun(P) -> promises:asked(sum, N, fun(Sum) -> Sum + 1 end, P) end end,
    ?assertEqual([0, 1, 2], promises:possible(sum, (Add(2))((Add(1))(promises:given(sum, 0, promises:new()))))).

what_is_not_known_test() ->
    ?assertEqual([], promises:possible(key, promises:new())).
