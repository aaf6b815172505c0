%% Tests the HTTP interface with calls and a real gateway.
-module(lobby_http_SUITE).

-include_lib("common_test/include/ct.hrl").
-include_lib("stdlib/include/assert.hrl").

-compile([export_all]).

-define(OPERATOR, "operator-token-0001").
-define(VIEWER, "viewer-token-000001").

suite() -> [{timetrap, {seconds, 120}}].

all() ->
    [a_room_is_steered, rooms_are_created_and_closed, tokens, errors, what_the_gateway_says, what_the_gateway_refuses, what_takes_too_long, metrics, who_did_what, a_change_without_an_answer, the_page, everything_is_described, events, watchers_are_limited, a_watcher_that_does_not_read, supervisors_fail, anything,
     every_error_is_json, bodies_are_limited, half_a_request, failures_are_logged, pages_are_closed_to_others, over_tls].

init_per_testcase(Case, Config) ->
    {ok, _} = application:ensure_all_started(inets),
    ok = application:load(lobby),
    G = gateway:start(),
    Relay = relay:start(gateway:address(G), #{lose => 0.0, double => 0.0, delay => 1}),
    [Sip, Http] = [gateway:free_address() || _ <- [sip, http]],
    Direct = gateway:config(<<"a">>, G),
    Gateway = case Case of what_the_gateway_refuses -> Direct#{address := relay:address(Relay)}; _ -> Direct end,
    Env = [{gateways, [Gateway]}, {sip, Sip}, {http, Http},
           {tokens, [{<<?OPERATOR>>, operator}, {<<?VIEWER>>, viewer}]} | env(Case, Config)],
    [ok = application:set_env(lobby, Key, Value) || {Key, Value} <- Env],
    {ok, _} = application:ensure_all_started(lobby),
    serving(100),
    [{sip, Sip}, {http, Http}, {gateway, G}, {relay, Relay} | Config].

env(over_tls, Config) ->
    {Certificate, Key} = certificate:new("first", proplists:get_value(priv_dir, Config)),
    [{tls, #{certificate => Certificate, key => Key, http => true}}];
%% These cases have separate audit logs.
env(Case, Config) when Case =:= who_did_what; Case =:= a_change_without_an_answer; Case =:= everything_is_described ->
    _ = file:delete(audit_file(Config)),
    [{audit_log, #{file => audit_file(Config), bytes => 65536, files => 9}}];
env(_, _) -> [].

audit_file(Config) -> filename:join(proplists:get_value(priv_dir, Config), "audit.jsonl").

serving(Tries) when Tries > 0 ->
    case lobby_gateway:serving() of
        [_] -> ok;
        [] -> timer:sleep(50), serving(Tries - 1)
    end.

end_per_testcase(_, Config) ->
    ok = lobby_case:stop(),
    Config.

ask(Method, Path, Config) -> ask(Method, Path, "", ?OPERATOR, Config).

ask(Method, Path, Body, Config) -> ask(Method, Path, Body, ?OPERATOR, Config).

ask(Method, Path, Body, Token, Config) ->
    Url = url(Path, Config),
    Headers = auth(Token),
    Request = case Method of
        get -> {Url, Headers};
        delete -> {Url, Headers};
        _ -> {Url, Headers, "application/json", Body}
    end,
    {ok, {{_, Status, _}, Given, Text}} = httpc:request(Method, Request, [], [{body_format, binary}]),
    case proplists:get_value("content-type", Given) of
        "application/json" -> {Status, jiffy:decode(Text, [return_maps])};
        Type -> {Status, Type, Text}
    end.

url(Path, Config) ->
    {_, Port} = proplists:get_value(http, Config),
    "http://127.0.0.1:" ++ integer_to_list(Port) ++ Path.

auth(none) -> [];
auth(Token) -> [{"authorization", "Bearer " ++ Token}].

call(Room, Config) ->
    Phone = phone:start(proplists:get_value(sip, Config), Room),
    Calling = phone:invite(phone:sdp(Phone), Phone),
    Response = phone:recv(Calling),
    ?assertEqual(200, phone:status(Response)),
    Talking = phone:learn(Response, Calling),
    phone:ack(Talking),
    Talking.

%% Two phones call, and hear each other. Speech starts shortly after the ACK.
two_talk(Config) ->
    [call("100", Config) || _ <- [1, 2]],
    lobby_case:until(fun() -> length(maps:get(flows, people:describe(<<"100">>))) =:= 2 end).

members(Room, Config) ->
    {200, #{<<"members">> := Members}} = ask(get, "/rooms/" ++ Room, Config),
    [Id || #{<<"id">> := Id} <- Members].

%% A phone joins the room and leaves it again.
phone_joins(Config) ->
    Phone = call("100", Config),
    Phone1 = phone:request("BYE", "", Phone),
    [?assertEqual(200, phone:status(phone:recv(Phone1)))].

%% Returns the number of open flows, as the gateway reports them.
flows(Room, Config) ->
    #{context := Context} = people:describe(list_to_binary(Room)),
    length(gateway:topology(Context, proplists:get_value(gateway, Config))).

a_room_is_steered(Config) ->
    Phones = [call("100", Config) || _ <- [1, 2, 3]],
    ?assertEqual({200, #{<<"rooms">> => [<<"100">>]}}, ask(get, "/rooms", Config)),
    [A, B, _] = [binary_to_list(Id) || Id <- members("100", Config)],
    Do = fun(Id, Action, Body) -> ask(post, "/members/" ++ Id ++ "/" ++ Action, Body, Config) end,
    ?assertEqual({200, #{}}, Do(A, "isolate", "")),
    ?assertEqual(2, flows("100", Config)),
    ?assertEqual({200, #{}}, Do(A, "release", "{}")),
    ?assertEqual(6, flows("100", Config)),
    ?assertEqual({200, #{}}, Do(A, "role", "{\"role\": \"coach\"}")),
    ?assertEqual({200, #{}}, ask(post, "/rooms/100/rules", "{\"rules\": [{\"hears\": false, \"talker\": {\"role\": \"coach\"},"
                                 " \"listener\": {\"member\": \"" ++ B ++ "\"}}]}", Config)),
    ?assertEqual(5, flows("100", Config)),
    ?assertEqual({200, #{}}, ask(put, "/rooms/100", "{\"rules\": []}", Config)),
    ?assertEqual({200, #{}}, Do(A, "oneway", "{\"listener\": \"" ++ B ++ "\"}")),
    Closed = fun() ->
        #{flows := Flows} = people:describe(<<"100">>),
        [{X, Y} || X <- members("100", Config), Y <- members("100", Config), X =/= Y] -- Flows
    end,
    ?assert(lists:member({list_to_binary(B), list_to_binary(A)}, Closed())),
    %% Speech starts shortly after the ACKs.
    lobby_case:until(fun() -> Closed() =:= [{list_to_binary(B), list_to_binary(A)}] end),
    ?assertEqual({200, #{}}, ask(post, "/rooms/100/lock", "", Config)),
    ?assertMatch({200, #{<<"locked">> := true}}, ask(get, "/rooms/100", Config)),
    Late = phone:start(proplists:get_value(sip, Config), "100"),
    _ = phone:invite(phone:sdp(Late), Late),
    ?assertEqual(403, phone:status(phone:recv(Late))),
    ?assertEqual({200, #{}}, ask(post, "/rooms/100/unlock", "", Config)),
    _ = phone_joins(Config),
    ?assertEqual({200, #{}}, Do(A, "mute", "")),
    {200, #{<<"members">> := Members}} = ask(get, "/rooms/100", Config),
    ?assertEqual([{<<"coach">>, true}], [{Role, Muted} || #{<<"id">> := Id, <<"role">> := Role, <<"muted">> := Muted} <- Members,
                                                          Id =:= list_to_binary(A)]),
    ?assertEqual([<<"Test">>], lists:usort([Caller || #{<<"caller">> := Caller} <- Members])),
    ?assertEqual({200, #{}}, Do(A, "unmute", "")),
    ?assertEqual({200, #{}}, Do(A, "move", "{\"room\": \"200\"}")),
    ?assertEqual([list_to_binary(A)], members("200", Config)),
    ?assertEqual({200, #{}}, Do(A, "hang_up", "")),
    ?assertEqual(["BYE"], [Status || Phone <- Phones, Status <- [phone:status(phone:recv(Phone, 200))], Status =/= none]),
    ?assertEqual({404, #{<<"error">> => <<"there is no such room">>}}, ask(get, "/rooms/200", Config)).

rooms_are_created_and_closed(Config) ->
    ?assertEqual({200, #{}}, ask(put, "/rooms/desk", "{\"preset\": \"coaching\"}", Config)),
    {200, #{<<"rules">> := [Rule]}} = ask(get, "/rooms/desk", Config),
    ?assertEqual(#{<<"hears">> => false, <<"talker">> => #{<<"role">> => <<"coach">>}, <<"listener">> => #{<<"role">> => <<"customer">>}}, Rule),
    Phone = call("desk", Config),
    ?assertEqual({200, #{}}, ask(delete, "/rooms/desk", Config)),
    ?assertEqual("BYE", phone:status(phone:recv(Phone))),
    ?assertEqual({200, #{<<"rooms">> => []}}, ask(get, "/rooms", Config)),
    ?assertEqual({200, #{}}, ask(put, "/rooms/desk", "{\"rules\": []}", Config)),
    ?assertEqual({200, #{}}, ask(delete, "/rooms/desk", Config)),
    ?assertEqual({200, #{<<"rooms">> => []}}, ask(get, "/rooms", Config)).

tokens(Config) ->
    ?assertMatch({401, #{<<"error">> := _}}, ask(get, "/rooms", "", none, Config)),
    ?assertMatch({401, #{<<"error">> := _}}, ask(get, "/rooms", "", "another-token-00001", Config)),
    ?assertMatch({401, #{<<"error">> := _}}, ask(get, "/metrics", "", none, Config)),
    ?assertMatch({200, _}, ask(get, "/rooms", "", ?VIEWER, Config)),
    ?assertMatch({403, #{<<"error">> := _}}, ask(put, "/rooms/1", "{\"rules\": []}", ?VIEWER, Config)),
    ?assertEqual([], lobby_room:names()).

errors(Config) ->
    Phone = call("100", Config),
    [Id] = [binary_to_list(I) || I <- members("100", Config)],
    Member = "/members/" ++ Id,
    Party = <<"a rule must be {\"hears\": true or false, \"talker\": PARTY, \"listener\": PARTY}, "
              "where PARTY is \"everyone\", {\"role\": TEXT} or {\"member\": ID}">>,
    [?assertEqual({Method, Path, Body, {Status, #{<<"error">> => Text}}}, {Method, Path, Body, ask(Method, Path, Body, Config)})
     || {Status, Text, Method, Path, Body} <-
            [{404, <<"there is no such path">>, get, "/nothing", ""},
             {404, <<"there is no such room">>, get, "/rooms/none", ""},
             {404, <<"there is no such path">>, post, "/nothing", "{}"},
             {404, <<"there is no such path">>, get, "/../lobby_http.erl", ""},
             {400, <<"the body is not JSON: truncated_json at byte 2">>, put, "/rooms/1", "{"},
             {400, <<"the body is not a JSON object">>, put, "/rooms/1", "[]"},
             {400, <<"\"rules\" or \"preset\" is missing">>, put, "/rooms/1", "{}"},
             {400, <<"\"rules\" or \"preset\" is missing">>, put, "/rooms/1", ""},
             {400, <<"a room's name must be 1 to 32 letters, digits or _.-">>, put, "/rooms/a%20b", "{\"rules\": []}"},
             {400, <<"\"preset\" must be plain, lecture, coaching or monitored">>, put, "/rooms/1", "{\"preset\": 1}"},
             {400, Party, post, "/rooms/100/rules", "{\"rules\": [1]}"},
             {400, Party, post, "/rooms/100/rules", "{\"rules\": [{\"hears\": true, \"talker\": 1, \"listener\": \"everyone\"}]}"},
             {400, Party, post, "/rooms/100/rules", "{\"rules\": [{\"hears\": true, \"talker\": {}, \"listener\": \"everyone\"}]}"},
             {404, <<"there is no such room">>, post, "/rooms/none/rules", "{\"rules\": []}"},
             {404, <<"there is no such room">>, post, "/rooms/none/lock", ""},
             {404, <<"there is no such room">>, delete, "/rooms/none", ""},
             {404, <<"there is no such member">>, post, "/members/none/mute", ""},
             {404, <<"there is no such member">>, post, "/members/none/hang_up", ""},
             {404, <<"there is no such path">>, post, Member ++ "/dance", ""},
             {400, <<"\"role\" must be a string of 1 to 32 bytes">>, post, Member ++ "/role", "{}"},
             {400, <<"\"role\" must be a string of 1 to 32 bytes">>, post, Member ++ "/role", "{\"role\": \"" ++ lists:duplicate(33, $a) ++ "\"}"},
             {404, <<"the listener isn't in the member's room">>, post, Member ++ "/oneway", "{\"listener\": \"x\"}"},
             {400, <<"\"room\" must be a string of 1 to 32 bytes">>, post, Member ++ "/move", "{\"room\": 1}"},
             {409, <<"the member is already in this room">>, post, Member ++ "/move", "{\"room\": \"100\"}"},
             {400, <<"a room's name must be 1 to 32 letters, digits or _.-">>, post, Member ++ "/move", "{\"room\": \"a b\"}"},
             {405, <<"allowed methods: GET">>, post, "/rooms", "{}"},
             {405, <<"allowed methods: GET, PUT, DELETE">>, post, "/rooms/100", "{}"},
             {405, <<"allowed methods: POST">>, get, Member ++ "/mute", ""}]],
    {ok, {_, Allowed, _}} = httpc:request(post, {url("/rooms", Config), auth(?OPERATOR), "application/json", "{}"}, [], []),
    ?assertEqual("GET", proplists:get_value("allow", Allowed)),
    {ok, {_, Denied, _}} = httpc:request(get, {url("/rooms", Config), []}, [], []),
    ?assertEqual("Bearer", proplists:get_value("www-authenticate", Denied)),
    %% A client that is still sending may lose the response, because the connection is reset.
    TooLong = fun Again() -> try ask(put, "/rooms/1", lists:duplicate(70000, $a), Config)
                             catch error:{badmatch, {error, socket_closed_remotely}} -> Again() end end,
    ?assertMatch({413, _, _}, TooLong()),
    %% At most 256 rules are allowed.
    Many = fun(N) -> "{\"rules\": [" ++ lists:append(lists:join(",", ["{\"hears\": true, \"talker\": {\"role\": \"" ++ integer_to_list(I) ++
                     "\"}, \"listener\": \"everyone\"}" || I <- lists:seq(1, N)])) ++ "]}" end,
    ?assertMatch({409, #{<<"error">> := <<"the room would have too many rules">>}}, ask(post, "/rooms/100/rules", Many(257), Config)),
    ?assertMatch({409, #{<<"error">> := <<"the room would have too many rules">>}}, ask(put, "/rooms/1", Many(257), Config)),
    ?assertEqual({200, #{<<"rooms">> => [<<"100">>]}}, ask(get, "/rooms", Config)),
    ?assertEqual([list_to_binary(Id)], members("100", Config)),
    phone:close(Phone).

%% A room's description has the gateway's flows, even if another controller has changed them without the room's
%% knowledge.
what_the_gateway_says(Config) ->
    two_talk(Config),
    {200, #{<<"context">> := Context, <<"audited">> := true, <<"flows">> := Flows}} = ask(get, "/rooms/100", Config),
    ?assertEqual(2, length(Flows)),
    gateway:ask(io_lib:format("Context=~b{Topology{*,*,Isolate}}", [Context]), proplists:get_value(gateway, Config)),
    {200, #{<<"flows">> := Repaired}} = ask(get, "/rooms/100", Config),
    ?assertEqual(Flows, Repaired),
    ?assertEqual(2, flows("100", Config)),
    {200, #{<<"gateways">> := [#{<<"name">> := <<"a">>, <<"terminations">> := 3, <<"contexts">> := 2}]}} = ask(get, "/gateways", Config).

%% A room's description has the gateway's flows, not the desired ones. While a member can still be heard, no response
%% confirms the isolation.
what_the_gateway_refuses(Config) ->
    two_talk(Config),
    [A, _] = members("100", Config),
    {200, #{<<"flows">> := Flows}} = ask(get, "/rooms/100", Config),
    ok = relay:refuse(proplists:get_value(relay, Config), <<"TP{">>),
    Isolate = "/members/" ++ binary_to_list(A) ++ "/isolate",
    NotYet = {503, #{<<"error">> => <<"the gateway hasn't accepted the change yet; the controller keeps trying">>}},
    ?assertEqual(NotYet, ask(post, Isolate, "", Config)),
    {200, #{<<"members">> := Members, <<"flows">> := Still}} = ask(get, "/rooms/100", Config),
    ?assertEqual({Flows, [A]}, {Still, [Id || #{<<"id">> := Id, <<"isolated">> := true} <- Members]}),
    ?assertEqual(2, flows("100", Config)),
    [?assertEqual(NotYet, ask(Method, Path, Body, Config))
     || {Method, Path, Body} <- [{put, "/rooms/100", "{\"rules\": [{\"hears\": false, \"talker\": \"everyone\", \"listener\": \"everyone\"}]}"}, {post, "/rooms/100/rules", "{\"rules\": []}"}]],
    ok = relay:pass(proplists:get_value(relay, Config)),
    lobby_case:until(fun() -> flows("100", Config) =:= 0 end),
    ?assertMatch({200, _}, ask(post, Isolate, "", Config)).

%% The room hangs for half a minute, as if it waited for its gateway.
what_takes_too_long(Config) ->
    call("100", Config),
    [Id] = members("100", Config),
    Member = "/members/" ++ binary_to_list(Id),
    ok = sys:suspend(lobby_registry:whereis_name({room, <<"100">>})),
    Parent = self(),
    %% Each request has its own connection, so that no request waits for another.
    ok = httpc:set_options([{max_keep_alive_length, 0}]),
    Requests = [{get, "/rooms/100", ""}, {put, "/rooms/100", "{\"rules\": []}"}, {post, Member ++ "/mute", ""},
                {post, Member ++ "/move", "{\"room\": \"200\"}"}],
    [spawn_link(fun() -> Parent ! {Request, ask(Method, Path, Body, Config)} end) || Request = {Method, Path, Body} <- Requests],
    TooLong = {504, #{<<"error">> => <<"the gateway hasn't answered yet">>}},
    [?assertEqual({Request, TooLong}, receive Answer = {Request, _} -> Answer end) || Request <- Requests].

metrics(Config) ->
    call("100", Config),
    [ok = lobby_events:count(lobby_gateway_losses_total, Name) || Name <- [<<"a">>, <<"a">>, <<"b\"\\\n">>]],
    {200, "text/plain; version=0.0.4", Text} = ask(get, "/metrics", Config),
    %% All metrics with the same name share one TYPE line.
    ?assertEqual(1, length(binary:matches(Text, <<"# TYPE lobby_gateway_losses_total counter\n">>))),
    [?assertNotEqual({Line, nomatch}, {Line, binary:match(Text, Line)})
     || Line <- [<<"lobby_gateway_losses_total{gateway=\"a\"} 2\n">>, <<"lobby_gateway_losses_total{gateway=\"b\\\"\\\\\\n\"} 1\n">>,
                 <<"lobby_rooms 1\n">>, <<"lobby_calls 1\n">>, <<"lobby_gateways_serving 1\n">>, <<"lobby_gateway_terminations{gateway=\"a\"} 2\n">>]].

%% Returns the lines of the audit log that a query selects.
lines(Query, Config) ->
    {200, #{<<"lines">> := Lines, <<"more">> := false}} = ask(get, "/audit" ++ Query, Config),
    Lines.

with(Event, Lines) -> [Line || Line = #{<<"event">> := Of} <- Lines, Of =:= Event].

%% The log has each change with its author and answer, each call, and each member's terminations. It has no secrets.
who_did_what(Config) ->
    Phones = [call("100", Config) || _ <- [1, 2]],
    [A, B] = members("100", Config),
    Member = "/members/" ++ binary_to_list(A),
    {ok, {{_, 200, _}, Headers, _}} = httpc:request(post, {url(Member ++ "/isolate", Config), auth(?OPERATOR), "application/json",
                                                           "{\"keep\": true, \"token\": \"" ++ ?OPERATOR ++ "\"}"}, [], []),
    {403, _} = ask(post, Member ++ "/mute", "", ?VIEWER, Config),
    {404, _} = ask(post, "/members/none/mute", "", Config),
    {200, _} = ask(post, Member ++ "/move", "{\"room\": \"200\"}", Config),
    {200, _} = ask(post, Member ++ "/role", "{\"role\": \"coach\"}", Config),
    {200, _} = ask(post, Member ++ "/hang_up", "", Config),
    [phone:close(Phone) || Phone <- Phones],
    lobby_case:until(fun() -> length(with(<<"ended">>, lines("", Config))) =:= 1 end),
    All = lines("", Config),
    ?assertEqual(lists:seq(1, length(All)), [N || #{<<"n">> := N} <- All]),
    Number = list_to_integer(proplists:get_value("request-number", Headers)),
    Isolated = #{<<"request">> => Number, <<"by">> => <<"operator 1">>, <<"from">> => <<"127.0.0.1">>, <<"rooms">> => [<<"100">>],
                 <<"change">> => <<"POST /members/{id}/isolate">>, <<"member">> => A, <<"caller">> => <<"Test">>, <<"says">> => <<"Test">>,
                 <<"proved">> => false},
    ?assertEqual([Isolated#{<<"event">> => <<"change">>, <<"body">> => #{<<"keep">> => true}}, Isolated#{<<"event">> => <<"answer">>, <<"status">> => 200}],
                 [maps:without([<<"n">>, <<"at">>], Line) || Line = #{<<"request">> := Of} <- All, Of =:= Number]),
    ?assertMatch([#{<<"status">> := 200}, #{<<"status">> := 404, <<"error">> := <<"there is no such member">>}, #{<<"rooms">> := [<<"100">>, <<"200">>]},
                  #{<<"rooms">> := [<<"200">>]}, #{<<"status">> := 200}], with(<<"answer">>, All)),
    ?assertMatch([#{<<"member">> := A, <<"rooms">> := [<<"100">>, <<"200">>], <<"roles">> := [<<"member">>, <<"coach">>], <<"codecs">> := [<<"PCMU">>],
                    <<"from">> := <<"127.0.0.1">>, <<"packets">> := 0, <<"why">> := <<"an operator hung up">>}], with(<<"ended">>, All)),
    ?assertEqual(lists:sort([A, B]), lists:sort([Id || #{<<"member">> := Id} <- with(<<"began">>, All)])),
    %% A query can select lines by room and time.
    ?assertMatch([#{<<"member">> := A}], with(<<"seat">>, lines("?room=200", Config))),
    [#{<<"at">> := From}, #{<<"at">> := To}] = [Line || Line = #{<<"request">> := Of} <- All, Of =:= Number],
    ?assertEqual(2, length([1 || #{<<"request">> := Of} <- lines(["?from=", From, "&to=", To, "&room=100"], Config), Of =:= Number])),
    ?assertEqual([], lines(["?room=200&to=", From], Config)),
    %% These names are for `heard --names'.
    {200, "text/csv; charset=utf-8", Names} = ask(get, "/names?gateway=a", Config),
    Seats = lists:usort([{T, Id} || #{<<"member">> := Id, <<"termination">> := T} <- with(<<"seat">>, All)]),
    ?assertEqual(iolist_to_binary([["RTP/", integer_to_list(T), ",\"Test (", Id, ")\"\n"] || {T, Id} <- Seats]), Names),
    [?assertMatch({Path, {Status, #{<<"error">> := Text}}}, {Path, ask(get, Path, "", Token, Config)})
     || {Status, Text, Token, Path} <- [{403, <<"this token can't read the audit log">>, ?VIEWER, "/audit"},
                                        {403, <<"this token can't read the audit log">>, ?VIEWER, "/names?gateway=a"},
                                        {400, <<"\"gateway\" is missing">>, ?OPERATOR, "/names"},
                                        {400, <<"\"room\" is given twice">>, ?OPERATOR, "/audit?room=1&room=2"}]],
    [?assertMatch({Query, "HTTP/1.1 400 " ++ _}, {Query, raw(request("GET", "/audit?" ++ Query, [], ""), Config)}) || Query <- ["room=%zz", "room=%ff", "%ff=1"]],
    {ok, File} = file:read_file(audit_file(Config)),
    [?assertEqual(nomatch, binary:match(File, Secret)) || Secret <- [<<?OPERATOR>>, <<?VIEWER>>, <<"token">>]].

%% If the controller ends during a change, the log has no answer to it.
a_change_without_an_answer(Config) ->
    call("100", Config),
    [Id] = members("100", Config),
    ok = sys:suspend(lobby_registry:whereis_name({room, <<"100">>})),
    _ = spawn(fun() -> ask(post, "/members/" ++ binary_to_list(Id) ++ "/mute", "", Config) end),
    lobby_case:until(fun() -> length(with(<<"change">>, maps:get(lines, element(2, lobby_audit:read(#{}))))) =:= 1 end),
    ok = supervisor:terminate_child(lobby_serving, lobby_http),
    exit(whereis(lobby_audit), kill),
    {ok, _} = supervisor:restart_child(lobby_serving, lobby_http),
    lobby_case:until(fun() -> whereis(lobby_audit) =/= undefined end),
    {ok, #{lines := Lines, more := false}} = lobby_audit:read(#{}),
    ?assertEqual({1, 0}, {length(with(<<"change">>, Lines)), length(with(<<"answer">>, Lines))}),
    {200, _} = ask(put, "/rooms/200", "{\"preset\": \"plain\"}", Config),
    ?assertMatch([#{<<"rooms">> := [<<"200">>]}], with(<<"answer">>, lines("", Config))),
    ?assertEqual(lists:seq(1, length(lines("", Config))), [N || #{<<"n">> := N} <- lines("", Config)]).

the_page(Config) ->
    {200, "text/html; charset=utf-8", Page} = ask(get, "/", "", none, Config),
    ?assertNotEqual(nomatch, binary:match(Page, <<"<title>Lobby</title>">>)).

%% Each request in openapi.json, except for the one for events, is answered with 200, and rooms, members and gateways
%% have the fields that openapi.json lists.
everything_is_described(Config) ->
    {200, #{<<"paths">> := Paths, <<"components">> := #{<<"schemas">> := Schemas}}} = ask(get, "/openapi.json", "", none, Config),
    Described = [{string:uppercase(binary_to_list(Method)), Path} || {Path, Methods} <- maps:to_list(Paths), Method <- maps:keys(Methods)],
    ?assertEqual(lists:sort([{Method, Path} || {Method, Path, _} <- lobby_http:routes()]), lists:sort(Described)),
    [begin
         [call("100", Config) || _ <- [1, 2]],
         [Id, Other] = members("100", Config),
         Name = case Path of <<"/gateways/", _/binary>> -> "a"; _ -> "100" end,
         Filled = string:replace(string:replace(string:replace(Path, "{name}", Name), "{id}", Id), "{number}", "0123456789abcdef"),
         Query = case Path of <<"/names">> -> "?gateway=a"; _ -> "" end,
         Answer = ask(list_to_atom(string:lowercase(Method)), binary_to_list(iolist_to_binary([Filled, Query])), body(Path, Other), Config),
         ?assertMatch({_, _, 200}, {Method, Path, element(1, Answer)}),
         ask(post, "/gateways/a/resume", Config),
         ask(delete, "/rooms/100", Config),
         ask(delete, "/rooms/200", Config)
     end || {Method, Path} <- Described, Path =/= <<"/events">>],
    call("100", Config),
    {200, Room = #{<<"members">> := [Member]}} = ask(get, "/rooms/100", Config),
    {200, #{<<"gateways">> := [Gateway]}} = ask(get, "/gateways", Config),
    [?assertEqual({Name, lists:sort(maps:keys(maps:get(<<"properties">>, maps:get(Name, Schemas))))}, {Name, lists:sort(maps:keys(Is))})
     || {Name, Is} <- [{<<"Room">>, Room}, {<<"Member">>, Member}, {<<"Gateway">>, Gateway}]].

body(<<"/members/{id}/oneway">>, Other) -> "{\"listener\": \"" ++ binary_to_list(Other) ++ "\"}";
body(<<"/members/{id}/role">>, _) -> "{\"role\": \"x\"}";
body(<<"/links">>, _) -> "{\"room\": \"100\", \"role\": \"x\", \"name\": \"x\", \"seconds\": 60}";
body(<<"/members/{id}/hang_up">>, _) -> "";
body(<<"/gateways/", _/binary>>, _) -> "";
body(<<"/members/{id}/let_in">>, _) -> "{\"role\": \"agent\"}";
body(<<"/members/{id}/move">>, _) -> "{\"room\": \"200\"}";
body(_, _) -> "{\"rules\": []}".

%% Each change causes an event. A query doesn't.
events(Config) ->
    Watching = watch(?VIEWER, Config),
    ?assertMatch("HTTP/1.1 200 OK\r\nContent-Type: text/event-stream\r\n" ++ _, head(Watching)),
    Room = "event: room\ndata: {\"name\":\"100\"}\n\n",
    Phone = call("100", Config),
    ?assertEqual(Room, said(Watching)),
    [Id] = members("100", Config),
    settles(Room, Watching),
    [begin
         ?assertMatch({_, {200, _}}, {Path, ask(post, Path, Body, Config)}),
         ?assertEqual({Path, Room}, {Path, said(Watching)})
     end || {Path, Body} <- [{"/members/" ++ binary_to_list(Id) ++ "/isolate", ""}, {"/members/" ++ binary_to_list(Id) ++ "/mute", ""},
                             {"/rooms/100/lock", ""}, {"/rooms/100/rules", "{\"rules\": [{\"hears\": true, \"talker\": \"everyone\", \"listener\": \"everyone\"}]}"}]],
    Phone1 = phone:request("BYE", "", Phone),
    ?assertEqual(200, phone:status(phone:recv(Phone1))),
    ?assertEqual(Room, said(Watching)),
    gateway:kill(proplists:get_value(gateway, Config)),
    "event: gateway\ndata: " ++ Data = said(Watching),
    ?assertEqual(#{<<"name">> => <<"a">>, <<"state">> => <<"lost">>}, jiffy:decode(string:trim(Data), [return_maps])),
    %% A client that closes its connection is unsubscribed.
    ok = gen_tcp:close(Watching),
    until(fun() -> pg:get_local_members(lobby, events) =:= [] end),
    NoToken = watch("", Config),
    ?assertMatch("HTTP/1.1 401 " ++ _, head(NoToken)).

%% Waits until no more events arrive. On a busy machine, the beginning of a call takes long enough for several events.
settles(Event, Watching) ->
    case said(400, Watching) of
        "" -> ok;
        Event -> settles(Event, Watching)
    end.

watch(Token, Config) ->
    {Address, Port} = proplists:get_value(http, Config),
    {ok, Socket} = gen_tcp:connect(Address, Port, [list, {active, false}, {recbuf, 4096}]),
    ok = gen_tcp:send(Socket, "GET /events HTTP/1.1\r\nHost: x\r\nAuthorization: Bearer " ++ Token ++ "\r\n\r\n"),
    Socket.

head(Socket) ->
    {ok, Text} = gen_tcp:recv(Socket, 0, 2000),
    Text.

%% Returns the events that arrive until the connection is quiet, each once.
said(Socket) -> said(3000, Socket).
said(Timeout, Socket) ->
    lists:append(lists:uniq([Event ++ "\n\n" || Event <- string:split(received(Timeout, Socket), "\n\n", all), Event =/= ""])).

received(Timeout, Socket) ->
    case gen_tcp:recv(Socket, 0, Timeout) of
        {ok, Text} -> Text ++ received(400, Socket);
        {error, timeout} -> ""
    end.

watchers_are_limited(Config) ->
    Watching = [begin S = watch(?VIEWER, Config), "HTTP/1.1 200" ++ _ = head(S), S end || _ <- lists:seq(1, 32)],
    ?assertMatch("HTTP/1.1 503 " ++ _, head(watch(?VIEWER, Config))),
    ok = gen_tcp:close(hd(Watching)),
    until(fun() -> length(pg:get_local_members(lobby, events)) =:= 31 end),
    ?assertMatch("HTTP/1.1 200 " ++ _, head(watch(?VIEWER, Config))),
    %% Viewers take no streams from operators. If an operator's token has too many streams, the oldest one is closed.
    Operators = [begin S = watch(?OPERATOR, Config), "HTTP/1.1 200" ++ _ = head(S), S end || _ <- lists:seq(1, 33)],
    ?assertEqual({error, closed}, gen_tcp:recv(hd(Operators), 0, 2000)),
    _ = phone_joins(Config),
    ?assertMatch({ok, "event: room" ++ _}, gen_tcp:recv(lists:last(Operators), 0, 2000)).

%% A slow reader is disconnected, and no other process waits for it.
a_watcher_that_does_not_read(Config) ->
    Watching = watch(?VIEWER, Config),
    _ = head(Watching),
    [Pid] = pg:get_local_members(lobby, events),
    Name = binary:copy(<<"x">>, 32),
    Stop = erlang:monotonic_time(millisecond) + 10000,
    Flood = fun Flood(N) ->
        case is_process_alive(Pid) andalso erlang:monotonic_time(millisecond) < Stop of
            true -> [ok = lobby_events:publish({room, <<Name/binary, (integer_to_binary(I))/binary>>}) || I <- lists:seq(N, N + 999)], timer:sleep(10), Flood(N + 1000);
            false -> ok
        end
    end,
    Flood(0),
    ?assertNot(is_process_alive(Pid)),
    ?assertEqual([], pg:get_local_members(lobby, events)),
    ?assertMatch({200, _}, ask(get, "/rooms", Config)).

%% Supervisors, the registry and the store are killed one after the other. Each time, HTTP requests are answered again.
%% In the end, the call is still in its room.
supervisors_fail(Config) ->
    Phone = call("100", Config),
    [begin
         Before = whereis(Name),
         exit(Before, kill),
         until(fun() -> not lists:member(whereis(Name), [undefined, Before]) andalso whereis(lobby_sip) =/= undefined end),
         until(fun() -> is_answered(Config) end)
     end || Name <- [lobby_room_sup, lobby_call_sup, lobby_room_sup, lobby_registry, lobby_room_sup, lobby_gateway_sup, lobby_serving, lobby_store]],
    ?assertEqual(1, length(members("100", Config))),
    %% The supervisor can restart these processes immediately.
    [begin
         ok = supervisor:terminate_child(lobby_serving, Child),
         ?assertMatch({ok, _}, supervisor:restart_child(lobby_serving, Child))
     end || Child <- [lobby_http, lobby_tcp_sup, lobby_sip], _ <- lists:seq(1, 100)],
    phone:close(Phone).

until(Holds) -> until(Holds, 750).

until(Holds, Tries) when Tries > 0 ->
    case Holds() of
        true -> ok;
        false -> timer:sleep(20), until(Holds, Tries - 1)
    end.

is_answered(Config) ->
    {_, Port} = proplists:get_value(http, Config),
    case httpc:request(get, {"http://127.0.0.1:" ++ integer_to_list(Port) ++ "/rooms/100", [{"authorization", "Bearer " ++ ?VIEWER}]}, [], []) of
        {ok, {{_, 200, _}, _, _}} -> true;
        _ -> false
    end.

%% Garbage on the port is answered, or its connection is closed, and the server continues.
anything(Config) ->
    {Address, Port} = proplists:get_value(http, Config),
    [begin
         {ok, Socket} = gen_tcp:connect(Address, Port, [binary, {active, false}]),
         _ = gen_tcp:send(Socket, Bytes),
         _ = gen_tcp:recv(Socket, 0, 200),
         gen_tcp:close(Socket)
     end || Bytes <- [<<"garbage">>, <<"GET">>, <<"GET /", 255, " HTTP/1.1\r\nHost: x\r\n\r\n">>, <<"POST /rooms HTTP/1.1\r\nHost: x\r\nContent-Length: -1\r\n\r\n">>,
                      <<"PUT /rooms/%zz HTTP/1.1\r\nHost: x\r\nContent-Length: 2\r\nAuthorization: Bearer ", ?OPERATOR, "\r\n\r\n{}">>,
                      <<"GET /%zz HTTP/1.1\r\nHost: x\r\nAuthorization: Bearer ", ?OPERATOR, "\r\n\r\n">>,
                      <<"GET / HTTP/1.1\r\nHost: x\r\n", (binary:copy(<<"X: y\r\n">>, 10000))/binary, "\r\n">> | [rand:bytes(200) || _ <- lists:seq(1, 50)]]],
    ?assertMatch({200, _}, ask(get, "/rooms", Config)).

%% Sends raw bytes. Returns the response until the connection is closed or quiet.
raw(Bytes, Config) -> raw(Bytes, 1000, Config).

raw(Bytes, Timeout, Config) ->
    {Address, Port} = proplists:get_value(http, Config),
    {ok, Socket} = gen_tcp:connect(Address, Port, [list, {active, false}]),
    _ = gen_tcp:send(Socket, Bytes),
    Answer = received(Timeout, Socket, ""),
    ok = gen_tcp:close(Socket),
    Answer.

received(Timeout, Socket, Before) ->
    case gen_tcp:recv(Socket, 0, Timeout) of
        {ok, Text} -> received(Timeout, Socket, Before ++ Text);
        {error, timeout} -> Before;
        {error, _} -> Before ++ " CLOSED"
    end.

request(Method, Path, Headers, Body) ->
    [Method, " ", Path, " HTTP/1.1\r\nHost: x\r\nAuthorization: Bearer ", ?OPERATOR, "\r\n", [[Header, "\r\n"] || Header <- Headers], "\r\n", Body].

with_length(Body) -> ["Content-Length: " ++ integer_to_list(iolist_size(Body))].

%% An error response is JSON, however malformed the path or the body is.
every_error_is_json(Config) ->
    [?assertMatch({Path, Body, Status, {match, _}},
                  begin
                      Answer = raw(request(Method, Path, with_length(Body), Body), 300, Config),
                      {Path, Body, list_to_integer(lists:sublist(Answer, 10, 3)), re:run(Answer, "\r\n\r\n\\{\"error\":\"[^\"]+", [])}
                  end)
     || {Status, Method, Path, Body} <-
            [{404, "GET", "/rooms/%ff", ""}, {404, "GET", "/rooms/%FF%fe/x", ""}, {404, "GET", "/%E2%82%AC", ""},
             {404, "POST", "/members/%ff/mute", ""}, {404, "GET", "/members/%00", ""}, {400, "PUT", "/rooms/%ff", "{\"rules\": []}"},
             {400, "PUT", "/rooms/1", "{\"rules\": 1e999}"}, {400, "PUT", "/rooms/1", "1e999"}, {400, "PUT", "/rooms/1", "{\"rules\": [{\"hears\": 1e999}]}"},
             {400, "PUT", "/rooms/1", lists:duplicate(60000, $[)}, {400, "PUT", "/rooms/1", [$", 255, $"]}]],
    ?assertMatch("HTTP/1.1 401 " ++ _, raw(["GET /rooms HTTP/1.1\r\nHost: x\r\nAuthorization: Bearer \xff\xfe", "\r\n\r\n"], Config)).

%% A body without a Content-Length isn't read, nor is a body that is too long.
bodies_are_limited(Config) ->
    Whole = "{\"rules\": []" ++ lists:duplicate(65536 - 14, $ ) ++ "}",
    ?assertMatch("HTTP/1.1 200 " ++ _, raw(request("PUT", "/rooms/1", with_length(Whole), Whole), Config)),
    ?assertMatch("HTTP/1.1 413 " ++ _, raw(request("PUT", "/rooms/1", with_length(["  " | Whole]), ["  " | Whole]), Config)),
    Chunk = lists:duplicate(200000, $ ),
    Refused = raw(request("PUT", "/rooms/2", ["Transfer-Encoding: chunked", "Connection: keep-alive"], ["30d40\r\n", Chunk, "\r\n"]), Config),
    ?assertMatch("HTTP/1.1 411 " ++ _, Refused),
    ?assertNotEqual(nomatch, string:find(Refused, " CLOSED")),
    %% No part of a chunked body is read as a request.
    Smuggled = request("PUT", "/rooms/3", with_length("{\"rules\": []}"), "{\"rules\": []}"),
    _ = raw(request("PUT", "/rooms/2", ["transfer-encoding: Chunked"], [integer_to_list(iolist_size(Smuggled), 16), "\r\n", Smuggled, "\r\n0\r\n\r\n"]), Config),
    ?assertEqual({200, #{<<"rooms">> => [<<"1">>]}}, ask(get, "/rooms", Config)).

%% The server waits for the rest of a request, but not for long.
half_a_request(Config) ->
    ok = application:set_env(lobby, http_body, 500),
    ?assertMatch("HTTP/1.1 408 " ++ _, raw(request("PUT", "/rooms/1", ["Content-Length: 10"], "{"), 3000, Config)),
    ?assertMatch("HTTP/1.1 408 " ++ _, raw("GET /rooms HTTP/1.1\r\nHost: x\r\n", 12000, Config)),
    %% The timer ends with the request.
    {Address, Port} = proplists:get_value(http, Config),
    {ok, Socket} = gen_tcp:connect(Address, Port, [list, {active, false}]),
    [begin
         ok = gen_tcp:send(Socket, request("PUT", "/rooms/1", with_length("{\"rules\": []}"), "{\"rules\": []}")),
         ?assertMatch({ok, "HTTP/1.1 200" ++ _}, gen_tcp:recv(Socket, 0, 2000)),
         ?assertEqual("", element(2, {Socket, received(700, Socket, "") -- "{}"}))
     end || _ <- [1, 2, 3]].

%% The log and the response have the same request number.
failures_are_logged(Config) ->
    File = filename:join(proplists:get_value(priv_dir, Config), "log"),
    ok = logger:add_handler(file, logger_std_h, #{config => #{file => File}}),
    %% This causes an unexpected error.
    ok = persistent_term:put(lobby_http, bad),
    Answer = raw(request("GET", "/rooms", [], ""), Config),
    ?assertMatch("HTTP/1.1 500 " ++ _, Answer),
    ?assertNotEqual(nomatch, string:find(Answer, "{\"error\":\"an error of the controller\"}")),
    {match, [Number]} = re:run(Answer, "\r\nRequest-Number: (\\d+)\r\n", [{capture, all_but_first, list}]),
    ok = logger_std_h:filesync(file),
    ok = logger:remove_handler(file),
    {ok, Log} = file:read_file(File),
    ?assertNotEqual(nomatch, string:find(Log, "HTTP request " ++ Number ++ ": GET \"/rooms\" was answered 500")).

%% A page runs only its own script, and can't be shown in a frame.
pages_are_closed_to_others(Config) ->
    [begin
         {ok, {{_, Status, _}, Headers, _}} = httpc:request(get, {url(Path, Config), []}, [], []),
         ?assertEqual({Path, "nosniff", "DENY", "no-referrer"}, {Path, proplists:get_value("x-content-type-options", Headers),
                                                                  proplists:get_value("x-frame-options", Headers), proplists:get_value("referrer-policy", Headers)}),
         ?assertMatch("default-src 'none'; script-src 'self';" ++ _, proplists:get_value("content-security-policy", Headers))
     end || {Path, Status} <- [{"/", 200}, {"/page.js", 200}, {"/page.css", 200}, {"/openapi.json", 200}, {"/rooms", 401}, {"/nothing", 401}]],
    {200, _, Page} = ask(get, "/", "", none, Config),
    ?assertEqual(nomatch, re:run(Page, "<script>|<style>|\\bon[a-z]+=|location")).

%% Clients see the operator's certificate, and a new certificate after a change. The responses are the same as without
%% TLS.
over_tls(Config) ->
    {Address, Port} = proplists:get_value(http, Config),
    Get = fun(Path) ->
        {ok, Socket} = ssl:connect(Address, Port, [{verify, verify_none}, {active, false}], 2000),
        ok = ssl:send(Socket, request("GET", Path, [], "")),
        {ok, Answer} = ssl:recv(Socket, 0, 2000),
        {ok, Der} = ssl:peercert(Socket),
        {Answer, certificate:name(Der), Socket}
    end,
    ?assertMatch({"HTTP/1.1 200" ++ _, "first", _}, Get("/rooms")),
    {"HTTP/1.1 200" ++ _, _, Watching} = Get("/events"),
    _ = phone_joins(Config),
    ?assertMatch({ok, "event: room" ++ _}, ssl:recv(Watching, 0, 2000)),
    ok = ssl:close(Watching),
    lobby_case:until(fun() -> pg:get_local_members(lobby, events) =:= [] end),
    _ = certificate:new("second", proplists:get_value(priv_dir, Config)),
    ok = ssl:clear_pem_cache(),
    ?assertMatch({"HTTP/1.1 200" ++ _, "second", _}, Get("/rooms")),
    %% A request without TLS gets no response.
    ?assertEqual(nomatch, string:find(raw(request("GET", "/rooms", [], ""), Config), "200 OK")).
