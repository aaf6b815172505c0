%% Tests canonical values with terms whose equivalent terms are known.
-module(canonical_tests).

-include_lib("eunit/include/eunit.hrl").

%% In these states, Alice and Bob are each in one of two rooms.
names_are_exchanged_test() ->
    Least = fun(Term) -> canonical:least(Term, [[alice, bob], [<<"1">>, <<"2">>]]) end,
    Together = [#{alice => <<"1">>, bob => <<"1">>}, #{alice => <<"2">>, bob => <<"2">>}],
    Apart = [#{alice => <<"1">>, bob => <<"2">>}, #{alice => <<"2">>, bob => <<"1">>}],
    ?assertMatch([_], lists:usort([Least(Term) || Term <- Together])),
    ?assertMatch([_], lists:usort([Least(Term) || Term <- Apart])),
    ?assertNotEqual(Least(hd(Together)), Least(hd(Apart))),
    %% The least term is one of the equivalent terms.
    ?assert(lists:member(Least(hd(Apart)), Apart)).

%% All orders of three exchangeable names in a queue have the same canonical form. A term with two such names has two
%% forms, because the names are equal or differ.
all_orders_are_tried_test() ->
    Least = fun(Term) -> canonical:least(Term, [[a, b, c]]) end,
    Names = [a, b, c],
    ?assertMatch([[_, _, _]], lists:usort([Least([X, Y, Z]) || X <- Names, Y <- Names -- [X], Z <- Names -- [X, Y]])),
    ?assertMatch([_, _], lists:usort([Least({first, X, last, [Y | tail]}) || X <- Names, Y <- Names])).

other_terms_stay_test() ->
    Term = {call, 1, 1.5, "text", <<"a">>, [#{key => [a | b]}], self()},
    ?assertEqual(Term, canonical:least(Term, [])),
    ?assertEqual(Term, canonical:least(Term, [[x, y]])),
    ?assertEqual(Term, canonical:ranked(Term, 1000)).

numbers_keep_their_order_test() ->
    Ranked = fun(Term) -> canonical:ranked(Term, 1000) end,
    ?assertEqual({1000, [1002, 1001], #{1000 => 2000, 1002 => 2001}, 999},
                 Ranked({1007, [1999, 1008], #{1007 => 2300, 1999 => 2301}, 999})),
    ?assertEqual(Ranked([1001, 1005, 1001]), Ranked([1100, 1200, 1100])),
    ?assertNotEqual(Ranked([1001, 1005]), Ranked([1005, 1001])),
    ?assertNotEqual(Ranked([1001, 2001]), Ranked([1001, 1001])).

%% The cached result for a part doesn't depend on the parts next to it.
lists_are_alike_test() ->
    Known = canonical:new(),
    Alike = fun(Parts) -> canonical:alike(Parts, 1000, Known) end,
    Lists = [[{1001, a}, #{1005 => 7}], [{1100, a}, #{1200 => 7}], [{1200, a}, #{1100 => 7}], [{1001, a}, #{1001 => 7}],
             [{1001, a}, #{1005 => 8}], [{1001, a}, #{2005 => 7}], [{1001, a}], [a, {1001, #{1005 => 7}}]],
    ?assertEqual([canonical:ranked(A, 1000) =:= canonical:ranked(B, 1000) || A <- Lists, B <- Lists],
                 [Alike(A) =:= Alike(B) || A <- Lists, B <- Lists]).
