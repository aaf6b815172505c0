-module(lobby_room_core_tests).

-include_lib("eunit/include/eunit.hrl").

row(Id, From) ->
    lobby_member:new(Id, #{room => <<"2">>, from => From, media => {{{127, 0, 0, 1}, 40000}, pcmu}, direction => sendrecv,
                           identity => <<"test">>}).

%% A killed process may have learned where an arriving member's phone still sends, without storing it. Until the phone
%% has confirmed its new address, it may still send to a lost gateway.
who_arrives_at_a_restart_is_awaited_test() ->
    Kept = #{rules => [], settings => #{}, gateway => none, stale => #{b => unknown}},
    {Room, Actions} = lobby_room_core:handle({start, Kept, [row(a, <<"1">>), row(b, none), row(c, none)]}, 0,
                                             lobby_room_core:new(#{name => <<"2">>, run => 1})),
    ?assertEqual([#{a => unknown, b => unknown}], [Stale || {save, #{stale := Stale}} <- Actions]),
    ?assertNot(lobby_room_core:agrees(Room)).

%% Seats are reserved with one request, and no other request undoes the reservation meanwhile.
seats_are_reserved_once_test() ->
    Seats = fun(Actions) -> [Action || Action <- Actions, lists:member(element(1, Action), [reserve, seats])] end,
    Room0 = lobby_room_core:new(#{name => <<"2">>, run => 1}),
    {Room1, _} = lobby_room_core:handle({admit, a, none, none}, 0, Room0),
    {Room2, _} = lobby_room_core:handle({placed, {gateway, 1}}, 0, Room1),
    {Room3, Actions} = lobby_room_core:handle({admit, b, none, none}, 0, Room2),
    ?assertEqual([{reserve, {gateway, 1}, [a, b]}], Seats(Actions)),
    {_, Admitted} = lobby_room_core:handle({reserved, true}, 0, Room3),
    ?assertEqual([], Seats(Admitted)),
    {_, Refused} = lobby_room_core:handle({reserved, false}, 0, Room3),
    ?assertEqual([{seats, {gateway, 1}, [a]}], Seats(Refused)).
