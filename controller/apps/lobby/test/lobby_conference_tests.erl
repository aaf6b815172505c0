-module(lobby_conference_tests).

-include_lib("eunit/include/eunit.hrl").

row(Id) ->
    lobby_member:new(Id, #{room => <<"1">>, media => {{{127, 0, 0, 1}, 40000}, pcmu}, direction => sendrecv, identity => <<"test">>}).

%% Adds a newcomer. Returns the step of the request, the gateway's reply, and the conference.
wanted(Id, Termination, C) ->
    {{request, #{commands := [{add_optional, _}]}, Step}, With} = lobby_conference:next(lobby_conference:want(row(Id), C)),
    Result = {add, Termination, #{local => {{{127, 0, 0, 1}, 30000}, pcmu}}},
    {Step, {ok, #{context => 7, results => [Result]}, #{Termination => own}}, With}.

added(Id, Termination, C) ->
    {Step, Answer, With} = wanted(Id, Termination, C),
    {[], Done} = lobby_conference:done(Step, Answer, With),
    {settled, Settled} = lobby_conference:next(Done),
    Settled.

two() -> added(b, 2, added(a, 1, lobby_conference:new())).

flows(C) -> lists:sort(sets:to_list(lobby_conference:flows(C))).

a_newcomer_has_the_wanted_flows_test() ->
    ?assertEqual([{a, b}, {b, a}], flows(two())),
    ?assertEqual(6, length(flows(added(c, 3, two())))).

%% A flow that became forbidden after the request was sent is closed next.
what_changes_while_he_is_added_is_closed_test() ->
    {Step, Answer, C} = wanted(c, 3, two()),
    Closed = fun(Changed) ->
        {[], Done} = lobby_conference:done(Step, Answer, Changed),
        {{request, #{topology := Triples}, {connect, _}}, _} = lobby_conference:next(Done),
        lists:sort(Triples)
    end,
    ?assertEqual([{1, 3, isolate}, {2, 3, isolate}], Closed(lobby_conference:want((row(c))#{isolated := true, version := 2}, C))),
    ?assertEqual([{1, 2, isolate}, {1, 3, isolate}], Closed(lobby_conference:want((row(a))#{isolated := true, version := 2}, C))),
    ?assertEqual([{3, 1, oneway}], Closed(lobby_conference:set_rules([{deny, {member, a}, {member, c}}], C))).

%% Members who have left in the meantime have no flows.
who_leaves_meanwhile_has_no_flows_test() ->
    {Step, Answer, C} = wanted(c, 3, two()),
    Left = fun(Id) -> element(2, lobby_conference:done(Step, Answer, lobby_conference:leave({ended, Id}, C))) end,
    ?assertEqual([{a, c}, {c, a}], flows(Left(b))),
    ?assertEqual([{a, b}, {b, a}], flows(Left(c))),
    ?assertMatch({{request, #{commands := [{subtract_optional, 3}]}, _}, _}, lobby_conference:next(Left(c))).
