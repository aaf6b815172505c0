-module(lobby_seats_tests).

-include_lib("eunit/include/eunit.hrl").

-define(LOCAL, {{{127, 0, 0, 1}, 30000}, pcmu}).

%% Returns five seats, one of which is the sentinel's, and two contexts in addition to the sentinel's.
new() -> lobby_seats:new(5, 3).

added(Room, Context, Added, S) ->
    Results = [{add, T, #{local => ?LOCAL}} || {_, T} <- Added],
    {_, Noted} = lobby_seats:noted(Room, [Id || {Id, _} <- Added], #{context => Context, results => Results}, S),
    Noted.

used(S) -> maps:get(terminations, lobby_seats:load(S)).

%% Two rooms can't both get the same free seats.
what_is_reserved_is_taken_test() ->
    {true, S} = lobby_seats:reserve(<<"1">>, [a, b, c], new()),
    ?assertEqual({false, S}, lobby_seats:reserve(<<"2">>, [d, e], S)),
    {true, S1} = lobby_seats:reserve(<<"2">>, [d], S),
    ?assertEqual(5, used(S1)),
    ?assertEqual(2, used(lobby_seats:keep(<<"1">>, [], S1))).

contexts_are_counted_test() ->
    {true, S} = lobby_seats:reserve(<<"1">>, [a], new()),
    {true, S1} = lobby_seats:reserve(<<"2">>, [b], S),
    ?assertMatch({false, _}, lobby_seats:reserve(<<"3">>, [c], S1)).

%% A person who has a seat needs no second seat in another room.
a_person_has_one_seat_test() ->
    {true, S} = lobby_seats:reserve(<<"1">>, [a, b, c, d], new()),
    S1 = added(<<"1">>, 7, [{a, 11}, {b, 12}, {c, 13}, {d, 14}], S),
    ?assertEqual(5, used(S1)),
    {true, S2} = lobby_seats:reserve(<<"2">>, [a], S1),
    ?assertEqual(5, used(S2)).

%% Two terminations of one person count as two until one of them is subtracted.
what_is_left_over_is_counted_test() ->
    S = added(<<"1">>, 7, [{a, 11}], new()),
    S1 = added(<<"2">>, 8, [{a, 12}], S),
    ?assertEqual(3, used(S1)),
    {[{delete, 11}], S2} = lobby_seats:ended(11, S1),
    ?assertEqual(2, used(S2)).

who_was_let_go_belongs_to_the_next_room_test() ->
    S = added(<<"1">>, 7, [{a, 11}, {b, 12}], new()),
    {[{put, 11, _}], S1} = lobby_seats:let_go(11, <<"2">>, S),
    ?assertMatch([#{termination := 12, given := false}], lobby_seats:holdings(<<"1">>, S1)),
    ?assertMatch([#{termination := 11, context := 7, member := a, given := true}], lobby_seats:holdings(<<"2">>, S1)),
    ?assertEqual(#{11 => other, 12 => own}, lobby_seats:owners(<<"1">>, 7, S1)),
    %% No reply has reported that the termination was moved into this context.
    ?assertEqual(#{11 => own, 12 => own}, lobby_seats:owners(<<"3">>, 9, S1)),
    {_, S2} = lobby_seats:noted(<<"2">>, [], #{context => 8, results => [{move, 11, #{}}]}, S1),
    ?assertMatch([#{termination := 11, context := 8, given := false}], lobby_seats:holdings(<<"2">>, S2)).

a_lost_gateway_has_nothing_test() ->
    S = added(<<"1">>, 7, [{a, 11}, {b, 12}], new()),
    {[7], Changes, S1} = lobby_seats:forget(S),
    ?assertEqual([{delete, 11}, {delete, 12}], lists:sort(Changes)),
    ?assertEqual({1, []}, {used(S1), lobby_seats:rooms(S1)}).

%% A rejected Add takes no seat, and the other members' seats are right.
who_is_refused_has_no_termination_test() ->
    Results = [{add, unknown, {error, 515}}, {add, 12, #{local => ?LOCAL}}],
    {_, S} = lobby_seats:noted(<<"1">>, [a, b], #{context => 7, results => Results}, new()),
    ?assertMatch([#{termination := 12, member := b}], lobby_seats:holdings(<<"1">>, S)).
