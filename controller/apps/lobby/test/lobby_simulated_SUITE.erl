%% Tests the simulated gateways of the scale trial, which are the proved program behind a socket.
-module(lobby_simulated_SUITE).

-include_lib("common_test/include/ct.hrl").
-include_lib("stdlib/include/assert.hrl").

-compile([export_all]).

suite() -> [{timetrap, {seconds, 60}}].

all() -> [rooms_on_a_simulated_gateway].

end_per_testcase(_, Config) ->
    _ = gateway:kill_all(),
    Config.

rooms_on_a_simulated_gateway(_) ->
    ok = application:load(lobby),
    Simulated = simulated_gateway:start(<<"s">>, 1),
    [ok = application:set_env(lobby, Key, gateway:free_address()) || Key <- [sip, http]],
    ok = application:set_env(lobby, gateways, [simulated_gateway:config(Simulated)]),
    {ok, _} = application:ensure_all_started(lobby),
    lobby_case:until(fun() -> length(lobby_gateway:serving()) =:= 1 end),
    ok = people:create(<<"100">>, lobby_rules:preset(coaching)),
    [{ok, _} = people:join(<<"100">>, Id, Role, {{{127, 0, 0, 1}, 40000}, pcmu}, sendrecv)
     || {Id, Role} <- [{alice, <<"customer">>}, {bob, <<"agent">>}, {carol, <<"coach">>}]],
    ?assertEqual(same, people:audit(<<"100">>)),
    ok = people:add_rules(<<"100">>, people:isolation(bob)),
    ?assertEqual(same, people:audit(<<"100">>)),
    ?assertEqual({2, 4}, simulated_gateway:contexts(Simulated)),
    [ok = people:leave(Id) || Id <- [alice, bob, carol]],
    ?assertEqual({1, 1}, simulated_gateway:contexts(Simulated)),
    ok = lobby_case:stop().
