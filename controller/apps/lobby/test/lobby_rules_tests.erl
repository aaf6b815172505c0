-module(lobby_rules_tests).

-include_lib("eunit/include/eunit.hrl").

-define(A, {a, <<"customer">>}).
-define(B, {b, <<"agent">>}).
-define(C, {c, <<"coach">>}).

flows(Rules) ->
    lists:sort(sets:to_list(lobby_rules:flows([?A, ?B, ?C], Rules))).

without_rules_everybody_hears_all_others_test() ->
    ?assertEqual([{a, b}, {a, c}, {b, a}, {b, c}, {c, a}, {c, b}], flows([])).

the_customer_never_hears_the_coach_test() ->
    ?assertEqual([{a, b}, {a, c}, {b, a}, {b, c}, {c, b}], flows(lobby_rules:preset(coaching))).

listeners_only_hear_test() ->
    Members = [{1, <<"speaker">>}, {2, <<"listener">>}, {3, <<"listener">>}],
    ?assertEqual([{1, 2}, {1, 3}], lists:sort(sets:to_list(lobby_rules:flows(Members, lobby_rules:preset(lecture))))).

isolated_test() ->
    ?assertEqual([{b, c}, {c, b}], flows(people:isolation(a))).

oneway_test() ->
    ?assertEqual([{a, b}, {a, c}, {b, c}, {c, a}, {c, b}], flows(lobby_rules:oneway({member, a}, {member, b}))).

the_last_rule_decides_test() ->
    Isolated = people:isolation(a),
    ?assertEqual(flows([]), flows(Isolated ++ allowed(a))),
    ?assertEqual([{b, c}, {c, a}, {c, b}], flows(Isolated ++ [{allow, {member, c}, {member, a}}])),
    ?assertEqual([{b, c}, {c, b}], flows([{allow, {member, c}, {member, a}} | Isolated])).

allowed(Id) -> [{allow, {member, Id}, everyone}, {allow, everyone, {member, Id}}].

nobody_hears_himself_test() ->
    ?assertNot(lobby_rules:hears(?A, ?A, [{allow, everyone, everyone}])).

a_repeated_rule_replaces_test() ->
    {ok, Once} = lobby_rules:add(people:isolation(a), []),
    ?assertEqual({ok, allowed(a)}, lobby_rules:add(allowed(a), Once)).

rules_are_limited_test() ->
    Rules = [{deny, {member, N}, everyone} || N <- lists:seq(1, 256)],
    ?assertMatch({ok, [_ | _]}, lobby_rules:add(Rules, [])),
    ?assertEqual({error, too_many_rules}, lobby_rules:add([{deny, everyone, everyone}], Rules)),
    ?assertMatch({ok, [_ | _]}, lobby_rules:add([{allow, {member, 1}, everyone}], Rules)).

rules_about_who_left_are_dropped_test() ->
    ?assertEqual([{deny, {role, <<"coach">>}, everyone}],
                 lobby_rules:forget(a, [{deny, {role, <<"coach">>}, everyone} | people:isolation(a)])).
