-module(lobby_store_tests).

-include_lib("eunit/include/eunit.hrl").

%% The store of a later release isn't opened, and its contents stay unchanged.
what_a_later_release_wrote_test_() ->
    {timeout, 60, fun what_a_later_release_wrote/0}.

what_a_later_release_wrote() ->
    process_flag(trap_exit, true),
    ok = mnesia:start(),
    {ok, First} = start(),
    ok = lobby_store:put(lobby_rooms, <<"100">>, room),
    ok = gen_server:stop(First),
    {ok, Second} = start(),
    ?assertEqual({ok, room}, lobby_store:get(lobby_rooms, <<"100">>)),
    ok = gen_server:stop(Second),
    Later = {lobby_calls, key, {version, 1000, a_call}},
    ok = mnesia:dirty_write(Later),
    ?assertEqual({error, {unknown_version, lobby_calls}}, start()),
    ?assertEqual([Later], mnesia:dirty_read(lobby_calls, key)),
    ?assertEqual({ok, room}, lobby_store:get(lobby_rooms, <<"100">>)),
    stopped = mnesia:stop().

start() ->
    lobby_store:start_link(#{store => memory, pair => none}).
