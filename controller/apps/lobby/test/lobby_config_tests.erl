-module(lobby_config_tests).

-include_lib("eunit/include/eunit.hrl").

-define(ADDRESS, {{127, 0, 0, 1}, 2944}).

check(Gateways) -> lobby_config:check([{gateways, Gateways}]).

defaults_test() ->
    ?assertMatch({ok, #{gateways := [#{name := <<"a">>, address := ?ADDRESS, here := {127, 0, 0, 1}, retry := 100, tries := 4,
                                       quiet := 5000, audit := 250, returns := 0, terminations := 256, contexts := 64}]}},
                 check([#{name => <<"a">>, address => ?ADDRESS}])).

values_test() ->
    ?assertMatch({ok, #{gateways := [#{retry := 10, contexts := 1}]}},
                 check([#{name => <<"a">>, address => ?ADDRESS, retry => 10, contexts => 1}])).

top_test_() ->
    Gateways = {gateways, [#{name => <<"a">>, address => ?ADDRESS}]},
    [?_assertEqual({error, Text}, lobby_config:check([Gateways, Wrong]))
     || {Text, Wrong} <-
            [{"the configuration has the unknown key port", {port, 1}},
             {"callers must be a list of networks such as {{192,0,2,0},24}, not [{{192,0,2,0},33}]", {callers, [{{192, 0, 2, 0}, 33}]}},
             {"users must be a map from names to passwords, all of them non-empty binaries, not #{<<\"a\">> => <<>>}", {users, #{<<"a">> => <<>>}}},
             {"tokens must be a list of tokens such as {<<\"sixteen bytes or more\">>,operator} (or viewer; a third element names who has it), "
              "not [{<<\"short\">>,viewer}]", {tokens, [{<<"short">>, viewer}]}},
             {"tokens must be a list of tokens such as {<<\"sixteen bytes or more\">>,operator} (or viewer; a third element names who has it), "
              "not [{<<\"0123456789abcdef\">>,viewer,<<>>}]", {tokens, [{<<"0123456789abcdef">>, viewer, <<>>}]}},
             {"the audit log must have the key file", {audit_log, #{}}},
             {"the audit log has the unknown key size", {audit_log, #{file => "/tmp/log", size => 1}}},
             {"bytes must be a whole number from 65536 to 1073741824, not 1", {audit_log, #{file => "/tmp/log", bytes => 1}}},
             {"files must be a whole number from 1 to 1000, not 0", {audit_log, #{file => "/tmp/log", files => 0}}},
             {"max_calls must be a whole number from 1 to 100000, not 0", {max_calls, 0}},
             {"max_rooms_from must be quarter or a whole number from 1 to 100000, not half", {max_rooms_from, half}},
             {"digest must be a list of md5 and sha256, not []", {digest, []}}]]
    ++ [?_assertMatch({ok, #{callers := [_], users := #{}, tokens := [_]}},
                      lobby_config:check([Gateways, {callers, [{{10, 0, 0, 0}, 8}]}, {tokens, [{<<"0123456789abcdef">>, viewer}]}])),
        ?_assertMatch({ok, #{tokens := [{_, operator, <<"Ann">>}], audit_log := #{bytes := 16777216, files := 9}}},
                      lobby_config:check([Gateways, {tokens, [{<<"0123456789abcdef">>, operator, <<"Ann">>}]}, {audit_log, #{file => "/tmp/log"}}]))].

%% A header of a role has a name in lower case, and the controller doesn't use it for anything else.
roles_test_() ->
    Check = fun(Name) -> lobby_config:check([{gateways, [#{name => <<"a">>, address => ?ADDRESS}]},
                                             {roles, [{header, Name, [{{10, 0, 0, 0}, 8}]}]}]) end,
    [?_assertMatch({ok, #{roles := [_]}}, Check(<<"x-role">>))
     | [?_assertMatch({error, "roles must be a list such as " ++ _}, Check(Name))
        || Name <- [<<"X-Role">>, <<"p-asserted-identity">>, <<"from">>, <<"t">>]]].

%% By default, one address gets a quarter of the gateways' capacity.
shares_test() ->
    Gateways = {gateways, [#{name => <<"a">>, address => ?ADDRESS}, #{name => <<"b">>, address => ?ADDRESS, terminations => 16, contexts => 8}]},
    ?assertMatch({ok, #{max_calls_from := 68, max_rooms_from := 18}}, lobby_config:check([Gateways])),
    ?assertMatch({ok, #{max_calls_from := 1, max_rooms_from := 1}},
                 lobby_config:check([{gateways, [#{name => <<"a">>, address => ?ADDRESS, terminations => 1, contexts => 1}]}])),
    ?assertMatch({ok, #{max_calls_from := 9, max_rooms_from := 7}}, lobby_config:check([Gateways, {max_calls_from, 9}, {max_rooms_from, 7}])).

tls_test_() ->
    Gateways = {gateways, [#{name => <<"a">>, address => ?ADDRESS}]},
    File = ?FILE,
    [?_assertMatch({ok, #{tls := #{sip := none, http := false}}}, lobby_config:check([Gateways, {tls, #{certificate => File, key => File}}])),
     ?_assertMatch({ok, #{tls := #{sip := ?ADDRESS, http := true}}}, lobby_config:check([Gateways, {tls, #{certificate => File, key => File, sip => ?ADDRESS, http => true}}]))
     | [?_assertEqual({error, Text}, lobby_config:check([Gateways, {tls, Wrong}]))
        || {Text, Wrong} <-
               [{"tls must have the key key", #{certificate => File}},
                {"key must be the path of a file, not \"/none\"", #{certificate => File, key => "/none"}},
                {"http must be true or false, not 1", #{certificate => File, key => File, http => 1}},
                {"sip must be an IPv4 address and a port such as {{127,0,0,1},2944}, not 5061", #{certificate => File, key => File, sip => 5061}},
                {"tls must be a map or none, not true", true}]]].

pair_test_() ->
    Pair = #{self => 'lobby@10.0.0.21', peer => 'lobby@10.0.0.22', cookie => <<"0123456789abcdef">>},
    Gateways = {gateways, [#{name => <<"a">>, address => ?ADDRESS}]},
    [?_assertMatch({ok, #{pair := #{lease := address, ready := none, gap := 250}}}, lobby_config:check([Gateways, {store, disc}, {pair, Pair}])),
     ?_assertMatch({ok, #{pair := #{gap := 2500}}},
                   lobby_config:check([Gateways, {store, disc}, {pair, Pair#{gap => 2500, lease => {file, "/tmp/lease"}}}]))
     | [?_assertEqual({error, Text}, lobby_config:check([Gateways, {store, Store}, {pair, Wrong}]))
        || {Text, Store, Wrong} <-
               [{"a pair needs {store,disc}", memory, Pair},
                {"self and peer are both 'lobby@10.0.0.21'", disc, Pair#{peer := 'lobby@10.0.0.21'}},
                {"the pair must have the key peer", disc, maps:remove(peer, Pair)},
                {"self must be a node's name such as 'lobby@10.0.0.20', not lobby", disc, Pair#{self := lobby}},
                {"cookie must be a binary of 16 to 255 bytes, not <<\"a\">>", disc, Pair#{cookie := <<"a">>}},
                {"lease must be address or {file,\"/path\"}, not true", disc, Pair#{lease => true}},
                {"gap must be at most 250, unless lease is a file", disc, Pair#{gap => 251}},
                {"gap must be a whole number from 100 to 2500, not 2501", disc, Pair#{gap => 2501, lease => {file, "/tmp/lease"}}},
                {"pair must be a map or none, not []", disc, []}]]].

refused_test_() ->
    [?_assertEqual({error, Text}, check(Gateways))
     || {Text, Gateways} <-
            [{"gateways must be a list of at least one gateway, not []", []},
             {"gateways must be a list of at least one gateway, not a", a},
             {"a gateway must be a map, not a", [a]},
             {"a gateway must have the key address", [#{name => <<"a">>}]},
             {"a gateway has the unknown key port", [#{name => <<"a">>, address => ?ADDRESS, port => 1}]},
             {"name must be a non-empty binary, not \"a\"", [#{name => "a", address => ?ADDRESS}]},
             {"address must be an IPv4 address and a port such as {{127,0,0,1},2944}, not {{127,0,0,1},0}",
              [#{name => <<"a">>, address => {{127, 0, 0, 1}, 0}}]},
             {"here must be an IPv4 address such as {127,0,0,1}, not \"127.0.0.1\"",
              [#{name => <<"a">>, address => ?ADDRESS, here => "127.0.0.1"}]},
             {"retry must be a whole number from 10 to 5000, not 9", [#{name => <<"a">>, address => ?ADDRESS, retry => 9}]},
             {"two gateways have the name <<\"a\">>", [#{name => <<"a">>, address => ?ADDRESS}, #{name => <<"a">>, address => ?ADDRESS}]}]].

%% A file is used completely or not at all, and the text describes the error.
files_test_() ->
    Gateways = "{gateways, [#{name => <<\"a\">>, address => {{127,0,0,1},2944}}]}",
    {setup, fun() -> string:trim(os:cmd("mktemp")) end, fun file:delete/1, fun(File) ->
        [?_test(begin
             ok = file:write_file(File, Text),
             ?assertEqual({Text, {error, lists:flatten(string:replace(Error, "FILE", File))}}, {Text, lobby_config:load(File)}),
             ?assertEqual(undefined, application:get_env(lobby, gateways))
         end) || {Error, Text} <-
             [{"FILE: 1: syntax error before: '}'", "[{lobby, [}]}]."},
              {"FILE must contain one list, followed by a full stop", ""},
              {"FILE must contain one list, followed by a full stop", "[]. []."},
              {"FILE must contain a list such as [{lobby,[{gateways,[..]}]}]", "[]."},
              {"FILE must contain a list such as [{lobby,[{gateways,[..]}]}]", "{lobby, []}."},
              {"FILE must contain a list such as [{lobby,[{gateways,[..]}]}]", "[{lobby, [{1, 2}]}]."},
              {"FILE must contain a list such as [{lobby,[{gateways,[..]}]}]", "[{lobby, [" ++ Gateways ++ "]}, mnesia]."},
              {"the configuration must have the key gateways", "[{lobby, []}]."},
              {"the configuration has the unknown key port", "[{lobby, [" ++ Gateways ++ ", {port, 1}]}]."}]]
        ++ [?_test(begin
             ok = file:write_file(File, ["[{lobby, [", Gateways, "]}, {mnesia, [{dir, \"x\"}]}]."]),
             ?assertMatch({ok, #{gateways := [_]}}, lobby_config:load(File)),
             ?assertMatch([{ok, [_]}, {ok, "x"}], [application:get_env(lobby, gateways), application:get_env(mnesia, dir)]),
             ok = application:unset_env(lobby, gateways),
             ok = application:unset_env(mnesia, dir)
         end),
         ?_assertMatch({error, "/none: " ++ _}, lobby_config:load("/none"))]
    end}.
