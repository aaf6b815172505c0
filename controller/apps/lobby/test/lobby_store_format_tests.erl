-module(lobby_store_format_tests).

-include_lib("eunit/include/eunit.hrl").

what_is_packed_is_unpacked_test() ->
    [?assertEqual({ok, Value}, lobby_store_format:unpack(Table, lobby_store_format:pack(Value)))
     || Table <- [lobby_rooms, lobby_calls, lobby_gateways, lobby_members], Value <- [{version, 1, old}, #{}, none]],
    ?assertEqual({ok, 3}, lobby_store_format:unpack(lobby_counters, 3)).

what_the_release_before_writes_test() ->
    ?assertEqual({ok, old}, lobby_store_format:unpack(lobby_requests, {version, 3, old})).

what_another_release_writes_test() ->
    [?assertEqual({error, {unknown_version, Table}}, lobby_store_format:unpack(Table, Stored))
     || Table <- [lobby_rooms, lobby_calls, lobby_gateways], Stored <- [setelement(2, lobby_store_format:pack(none), 1000), {}, none]].
