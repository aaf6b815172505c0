%% Tests members who join by links from browsers, with real gateways and a fake rtpengine.
-module(lobby_web_SUITE).

-include_lib("common_test/include/ct.hrl").
-include_lib("stdlib/include/assert.hrl").

-compile([export_all]).

-define(OPERATOR, "operator-token-0001").
-define(VIEWER, "viewer-token-000001").
-define(SILENT, {true, 0}).

suite() -> [{timetrap, {seconds, 90}}].

all() ->
    [a_link_has_one_member, who_joins_again_stays_isolated, many_posts_at_once, links_end, a_door, a_locked_room, bad_links, bad_offers,
     rtpengine_is_lost, processes_fail, a_gateway_is_lost, isolation_is_not_shown].

init_per_testcase(Case, Config) ->
    {ok, _} = application:ensure_all_started(inets),
    ok = application:load(lobby),
    Relay = rtpengine:start(),
    Gateways = [{Name, gateway:start()} || Name <- [<<"a">> | [<<"b">> || Case =:= a_gateway_is_lost]]],
    Http = gateway:free_address(),
    Env = [{gateways, [gateway:config(Name, G) || {Name, G} <- Gateways]}, {sip, gateway:free_address()}, {http, Http}, {rtpengine, rtpengine:address(Relay)},
           {audit_log, #{file => audit_file(Case, Config), bytes => 1048576, files => 1}},
           {ice_servers, [#{urls => <<"turn:192.0.2.9:3478">>, username => <<"a">>, credential => <<"b">>}]},
           {tokens, [{<<?OPERATOR>>, operator}, {<<?VIEWER>>, viewer}]}],
    [ok = application:set_env(lobby, Key, Value) || {Key, Value} <- Env],
    {ok, _} = application:ensure_all_started(lobby),
    lobby_case:until(fun() -> length(lobby_gateway:serving()) =:= length(Gateways) andalso lobby_rtpengine:state() =:= serving end),
    [{http, Http}, {relay, Relay}, {gateways, Gateways} | Config].

audit_file(Case, Config) -> filename:join(proplists:get_value(priv_dir, Config), atom_to_list(Case)).

end_per_testcase(_, Config) ->
    ok = lobby_case:stop(),
    Config.

request(Method, Path, Token, Type, Body, Config) ->
    {_, Port} = proplists:get_value(http, Config),
    Url = "http://127.0.0.1:" ++ integer_to_list(Port) ++ Path,
    Headers = [{"authorization", "Bearer " ++ binary_to_list(iolist_to_binary(Token))}],
    Request = case Method of post -> {Url, Headers, Type, Body}; put -> {Url, Headers, Type, Body}; _ -> {Url, Headers} end,
    {ok, {{_, Status, _}, Given, Text}} = httpc:request(Method, Request, [{timeout, 20000}], [{body_format, binary}]),
    case proplists:get_value("content-type", Given) of
        "application/json" -> {Status, jiffy:decode(Text, [return_maps])};
        "application/sdp" -> {Status, proplists:get_value("location", Given), Text}
    end.

ask(Method, Path, Body, Config) -> request(Method, Path, ?OPERATOR, "application/json", Body, Config).

link_to(Room, Role, Config) -> link_to(Room, Role, 600, Config).

link_to(Room, Role, Seconds, Config) ->
    Body = jiffy:encode(#{room => Room, role => Role, name => <<"Ann">>, seconds => Seconds}),
    {200, #{<<"number">> := Number, <<"link">> := Link}} = ask(post, "/links", Body, Config),
    {Number, Link}.

%% Joins by a link. Returns the caller, and the path of the POST's resource.
join({_, Link}, Config) ->
    {Caller, Offer} = rtpengine:offer(proplists:get_value(relay, Config)),
    case post(Link, Offer, Config) of
        {201, Place, _} -> {Caller, Place};
        Other -> Other
    end.

post(Link, Offer, Config) -> request(post, "/web", Link, "application/sdp", Offer, Config).

state({_, Link}, Place, Config) -> request(get, Place, Link, "", "", Config).

members(Room, Config) ->
    case ask(get, "/rooms/" ++ Room, "", Config) of {200, #{<<"members">> := Members}} -> Members; {404, _} -> [] end.

heard(Caller, Ms) ->
    timer:sleep(60),
    caller:reset(Caller),
    timer:sleep(Ms),
    lobby_case:until(fun() -> caller:received(Caller) > 0 end),
    {true, caller:heard(Caller)}.

hears(Caller) ->
    caller:reset(Caller),
    lobby_case:until(fun() -> caller:heard(Caller) > 3 end).

%% Adds a member with a phone, who talks.
talker(Room, Id) ->
    Caller = caller:start(),
    {ok, _} = people:joins(Id, #{room => Room, role => <<"agent">>, caller => Caller}),
    Caller.

a_link_has_one_member(Config) ->
    Other = talker(<<"100">>, <<"other">>),
    Link = {_, Token} = link_to(<<"100">>, <<"coach">>, Config),
    ?assertEqual({200, #{<<"room">> => <<"100">>, <<"name">> => <<"Ann">>,
                         <<"ice_servers">> => [#{<<"urls">> => <<"turn:192.0.2.9:3478">>, <<"username">> => <<"a">>, <<"credential">> => <<"b">>}]}},
                 request(get, "/web", Token, "", "", Config)),
    {First, Place} = join(Link, Config),
    hears(First),
    hears(Other),
    ?assertMatch([#{<<"caller">> := <<"Ann">>, <<"says">> := <<"Ann">>, <<"proved">> := true, <<"role">> := <<"coach">>}],
                 [Member || Member = #{<<"role">> := <<"coach">>} <- members("100", Config)]),
    ?assertEqual({200, #{<<"state">> => <<"in">>}}, state(Link, Place, Config)),
    %% The member joins from another browser.
    {Second, Next} = join(Link, Config),
    hears(Second),
    ?assertEqual(2, length(members("100", Config))),
    ?assertMatch({409, _}, state(Link, Place, Config)),
    ?assertMatch({409, _}, request(delete, Place, Token, "", "", Config)),
    ?assertEqual(1, length(rtpengine:calls(proplists:get_value(relay, Config)))),
    ?assertEqual({200, #{}}, request(delete, Next, Token, "", "", Config)),
    ?assertEqual(1, length(members("100", Config))),
    ?assertMatch({404, _}, state(Link, Next, Config)),
    lobby_case:until(fun() -> rtpengine:calls(proplists:get_value(relay, Config)) =:= [] end),
    %% The audit log has the call, without the link's token.
    Number = element(1, Link),
    Ended = fun() -> {ok, #{lines := Lines}} = lobby_audit:read(#{}), [Line || Line = #{<<"event">> := <<"ended">>} <- Lines] end,
    lobby_case:until(fun() -> Ended() =/= [] end),
    ?assertMatch([#{<<"link">> := Number, <<"caller">> := <<"Ann">>, <<"rooms">> := [<<"100">>], <<"roles">> := [<<"coach">>], <<"codecs">> := [<<"PCMU">>],
                    <<"from">> := <<"127.0.0.1">>, <<"why">> := <<"the caller hung up">>}], Ended()),
    {ok, File} = file:read_file(audit_file(a_link_has_one_member, Config)),
    ?assertEqual(nomatch, binary:match(File, binary:part(Token, 0, 40))),
    %% A change of links is about the link's room, and a link's number isn't a room.
    {200, _} = ask(delete, "/links/" ++ binary_to_list(Number), "", Config),
    {ok, #{lines := Lines}} = lobby_audit:read(#{}),
    ?assertEqual([{<<"POST /links">>, [<<"100">>]}, {<<"DELETE /links/{number}">>, none}],
                 [{Change, maps:get(<<"rooms">>, Line, none)} || Line = #{<<"event">> := <<"change">>, <<"change">> := Change} <- Lines]).

%% A member who joins again stays isolated, whether or not the member is still in the room.
who_joins_again_stays_isolated(Config) ->
    Other = talker(<<"100">>, <<"other">>),
    Link = {_, Token} = link_to(<<"100">>, <<"coach">>, Config),
    {First, _} = join(Link, Config),
    hears(First),
    [Id] = [Id || #{<<"id">> := Id, <<"role">> := <<"coach">>} <- members("100", Config)],
    Member = "/members/" ++ binary_to_list(Id),
    [{200, _} = ask(post, Member ++ "/" ++ Action, Body, Config) || {Action, Body} <- [{"isolate", ""}, {"mute", ""}, {"role", "{\"role\": \"guest\"}"}]],
    {Second, Place} = join(Link, Config),
    ?assertEqual([?SILENT, ?SILENT], [heard(Caller, 300) || Caller <- [Second, Other]]),
    {200, _} = request(delete, Place, Token, "", "", Config),
    {Third, _} = join(Link, Config),
    ?assertEqual([?SILENT, ?SILENT], [heard(Caller, 300) || Caller <- [Third, Other]]),
    ?assertMatch([#{<<"isolated">> := true, <<"muted">> := true, <<"role">> := <<"guest">>}], [It || It = #{<<"id">> := Of} <- members("100", Config), Of =:= Id]),
    [{200, _} = ask(post, Member ++ "/" ++ Action, "", Config) || Action <- ["release", "unmute"]],
    hears(Third),
    hears(Other),
    %% The member stays in the room to which an operator moved the member.
    {200, _} = ask(post, Member ++ "/move", "{\"room\": \"200\"}", Config),
    {_, _} = join(Link, Config),
    ?assertEqual([Id], [Of || #{<<"id">> := Of} <- members("200", Config)]).

many_posts_at_once(Config) ->
    {Number, Token} = link_to(<<"100">>, <<"coach">>, Config),
    Relay = proplists:get_value(relay, Config),
    Parent = self(),
    Offers = [rtpengine:offer(Relay) || _ <- lists:seq(1, 8)],
    [spawn_link(fun() -> Parent ! {answer, post(Token, Offer, Config)} end) || {_, Offer} <- Offers],
    Answers = [receive {answer, Answer} -> Answer end || _ <- Offers],
    ?assertEqual([], [Answer || Answer <- Answers, element(1, Answer) =/= 201, element(1, Answer) =/= 409]),
    Places = [Place || {201, Place, _} <- Answers],
    ?assertEqual(1, length([Place || Place <- Places, {200, _} <- [state({Number, Token}, Place, Config)]])),
    ?assertEqual(1, length(members("100", Config))),
    lobby_case:until(fun() -> length(rtpengine:calls(Relay)) =:= 1 end).

links_end(Config) ->
    {Number, Token} = Link = link_to(<<"100">>, <<"coach">>, Config),
    Says = fun(Given) -> {401, #{<<"error">> := Text}} = request(get, "/web", Given, "", "", Config), Text end,
    [?assertEqual(<<"the link isn't valid">>, Says(Given))
     || Given <- ["", "x", ?OPERATOR, [Token, "00"], binary:replace(Token, <<".">>, <<"00.">>), binary:part(Token, 0, 100)]],
    ?assertMatch({401, _}, request(get, "/rooms", Token, "", "", Config)),
    {_, Short} = Soon = link_to(<<"100">>, <<"coach">>, 1, Config),
    lobby_case:until(fun() -> element(1, request(get, "/web", Short, "", "", Config)) =:= 401 end),
    ?assertEqual(<<"the link has expired">>, Says(Short)),
    ?assertMatch({401, _}, join(Soon, Config)),
    %% A member whose call an operator has ended can join again, unless the link is revoked.
    {_, _} = join(Link, Config),
    [#{<<"id">> := Id}] = members("100", Config),
    Member = "/members/" ++ binary_to_list(Id),
    {200, _} = ask(post, Member ++ "/hang_up", "", Config),
    {_, Place} = join(Link, Config),
    {200, _} = ask(post, Member ++ "/hang_up", "{\"revoke\": true}", Config),
    ?assertEqual(<<"the link has been revoked">>, Says(Token)),
    ?assertMatch({401, _}, join(Link, Config)),
    ?assertMatch({401, _}, state(Link, Place, Config)),
    {Other, _} = Another = link_to(<<"100">>, <<"coach">>, Config),
    {_, _} = join(Another, Config),
    ?assertEqual({200, #{}}, ask(delete, "/links/" ++ binary_to_list(Other), "", Config)),
    ?assertEqual([], members("100", Config)),
    ?assertMatch({401, _}, join(Another, Config)),
    ?assertMatch({404, _}, ask(delete, "/links/x", "", Config)),
    ?assertEqual({200, #{}}, ask(delete, "/links/" ++ binary_to_list(Number), "", Config)).

%% A member waits at the door only once.
a_door(Config) ->
    {200, _} = ask(put, "/rooms/100", "{\"preset\": \"plain\", \"door\": true}", Config),
    Other = talker(<<"100">>, <<"other">>),
    Link = link_to(<<"100">>, <<"coach">>, Config),
    {First, Place} = join(Link, Config),
    ?assertEqual({200, #{<<"state">> => <<"waiting">>}}, state(Link, Place, Config)),
    [Id] = [Id || #{<<"id">> := Id, <<"waiting">> := true} <- members("100", Config)],
    caller:reset(Other),
    timer:sleep(300),
    ?assertEqual({0, 0}, {caller:heard(First), caller:heard(Other)}),
    {200, _} = ask(post, "/members/" ++ binary_to_list(Id) ++ "/let_in", "{\"role\": \"guest\"}", Config),
    hears(First),
    hears(Other),
    {Second, Next} = join(Link, Config),
    hears(Second),
    ?assertEqual({200, #{<<"state">> => <<"in">>}}, state(Link, Next, Config)).

a_locked_room(Config) ->
    {200, _} = ask(put, "/rooms/100", "{\"preset\": \"plain\"}", Config),
    {200, _} = ask(post, "/rooms/100/lock", "", Config),
    ?assertMatch({409, #{<<"error">> := <<"the room is locked">>}}, join(link_to(<<"100">>, <<"coach">>, Config), Config)),
    ?assertEqual([], members("100", Config)),
    lobby_case:until(fun() -> rtpengine:calls(proplists:get_value(relay, Config)) =:= [] end).

bad_links(Config) ->
    Body = fun(Changed) -> jiffy:encode(maps:merge(#{<<"room">> => <<"100">>, <<"role">> => <<"coach">>, <<"name">> => <<"Ann">>, <<"seconds">> => 60}, Changed)) end,
    Seconds = <<"\"seconds\" must be a whole number from 1 to 2678400">>,
    [?assertEqual({Given, {400, #{<<"error">> => Text}}}, {Given, ask(post, "/links", Given, Config)})
     || {Text, Given} <- [{Seconds, Body(#{<<"seconds">> => Wrong})} || Wrong <- [0, -1, 2678401, 1.5, <<"60">>, null]]
            ++ [{<<"\"", Key/binary, "\" must be a string of 1 to 32 bytes">>, Body(#{Key => Wrong})}
                || Key <- [<<"room">>, <<"role">>, <<"name">>], Wrong <- [<<>>, 1, null, binary:copy(<<"a">>, 33)]]
            ++ [{<<"a room's name must be 1 to 32 letters, digits or _.-">>, Body(#{<<"room">> => <<"a b">>})},
                {<<"the body has the unknown key \"until\"">>, Body(#{<<"until">> => 1})},
                {<<"the body has the key \"room\" twice">>, "{\"room\": \"100\", \"room\": \"200\"}"},
                {<<"the body is not a JSON object">>, "[]"}]],
    ?assertMatch({403, _}, request(post, "/links", ?VIEWER, "application/json", Body(#{}), Config)),
    {ok, _} = people:join(<<"100">>, <<"x">>, <<"agent">>),
    ?assertEqual({400, #{<<"error">> => <<"the member hasn't joined by a link">>}}, ask(post, "/members/x/hang_up", "{\"revoke\": true}", Config)).

%% Only encrypted offers are relayed, and rtpengine doesn't see the addresses in them.
bad_offers(Config) ->
    {_, Token} = link_to(<<"100">>, <<"coach">>, Config),
    Relay = proplists:get_value(relay, Config),
    {_, Offer} = rtpengine:offer(Relay),
    Without = fun(Pattern) -> re:replace(Offer, Pattern, "", [{return, binary}]) end,
    [?assertMatch({Bad, {400, _}}, {Bad, post(Token, Bad, Config)})
     || Bad <- [<<>>, <<"x">>, rand:bytes(1000), Without("a=fingerprint.*\r\n"), Without("a=ice-ufrag.*\r\n"), Without("m=.*\r\n"),
                binary:replace(Offer, <<"UDP/TLS/RTP/SAVPF">>, <<"RTP/AVP">>), binary:replace(Offer, <<"UDP/TLS/RTP/SAVPF">>, <<"RTP/SAVP">>),
                <<Offer/binary, "m=audio 9 RTP/AVP 0\r\n">>, <<Offer/binary, "m=video 9 RTP/AVP 0\r\n">>,
                <<Offer/binary, "a=", 255, "\r\n">>]],
    ?assertEqual([], rtpengine:offers(Relay)),
    ?assertMatch({415, _}, request(post, "/web", Token, "text/plain", Offer, Config)),
    ok = rtpengine:be(refusing, Relay),
    ?assertMatch({400, #{<<"error">> := <<"the offer can't be relayed">>}}, post(Token, Offer, Config)),
    ok = rtpengine:be(serving, Relay),
    {201, _, _} = post(Token, Offer, Config),
    [Told | _] = rtpengine:offers(Relay),
    ?assertEqual([nomatch, nomatch], [binary:match(Told, It) || It <- [<<"192.0.2.66">>, <<"candidate">>]]).

%% Browsers learn that rtpengine was lost, and join again. Isolation and mute persist.
rtpengine_is_lost(Config) ->
    Relay = proplists:get_value(relay, Config),
    Other = talker(<<"100">>, <<"other">>),
    Link = link_to(<<"100">>, <<"coach">>, Config),
    {First, Place} = join(Link, Config),
    hears(First),
    [Id] = [Id || #{<<"id">> := Id, <<"role">> := <<"coach">>} <- members("100", Config)],
    {200, _} = ask(post, "/members/" ++ binary_to_list(Id) ++ "/isolate", "", Config),
    ok = rtpengine:restart(Relay),
    lobby_case:until(fun() -> {200, #{<<"state">> => <<"lost">>}} =:= state(Link, Place, Config) end),
    {Second, Next} = join(Link, Config),
    ?assertEqual([?SILENT, ?SILENT], [heard(Caller, 300) || Caller <- [Second, Other]]),
    ok = rtpengine:be(lost, Relay),
    lobby_case:until(fun() -> lobby_rtpengine:state() =:= lost end),
    ?assertMatch({200, #{<<"rtpengine">> := <<"lost">>}}, ask(get, "/gateways", "", Config)),
    ?assertMatch({503, #{<<"error">> := <<"rtpengine doesn't answer">>}}, join(link_to(<<"100">>, <<"coach">>, Config), Config)),
    %% A member who tries in vain to join again stays in the room, and changes don't wait for rtpengine.
    ?assertMatch({503, _}, join(Link, Config)),
    ?assertEqual({200, #{<<"state">> => <<"lost">>}}, state(Link, Next, Config)),
    {200, _} = ask(post, "/members/" ++ binary_to_list(Id) ++ "/mute", "", Config),
    ok = rtpengine:be(serving, Relay),
    lobby_case:until(fun() -> lobby_rtpengine:state() =:= serving end),
    {Third, _} = join(Link, Config),
    {200, _} = ask(post, "/members/" ++ binary_to_list(Id) ++ "/release", "", Config),
    hears(Third),
    ?assertEqual(?SILENT, heard(Other, 300)).

processes_fail(Config) ->
    Other = talker(<<"100">>, <<"other">>),
    Link = {Number, _} = link_to(<<"100">>, <<"coach">>, Config),
    {First, Place} = join(Link, Config),
    hears(First),
    [Id] = [Id || #{<<"id">> := Id, <<"role">> := <<"coach">>} <- members("100", Config)],
    {200, _} = ask(post, "/members/" ++ binary_to_list(Id) ++ "/isolate", "", Config),
    [begin
         Pid = Find(),
         exit(Pid, kill),
         lobby_case:until(fun() -> is_pid(Find()) andalso Find() =/= Pid end),
         ?assertEqual([?SILENT, ?SILENT], [heard(Caller, 200) || Caller <- [First, Other]])
     end || Find <- [fun() -> lobby_registry:whereis_name({call, {web, Number}}) end, fun() -> whereis(lobby_rtpengine) end,
                     fun() -> whereis(lobby_web_sup) end, fun() -> lobby_registry:whereis_name({room, <<"100">>}) end]],
    lobby_case:until(fun() -> {200, #{<<"state">> => <<"in">>}} =:= state(Link, Place, Config) end),
    {200, _} = ask(post, "/members/" ++ binary_to_list(Id) ++ "/release", "", Config),
    hears(First),
    hears(Other).

%% rtpengine is notified of the new gateway's address.
a_gateway_is_lost(Config) ->
    Link = link_to(<<"100">>, <<"coach">>, Config),
    Two = link_to(<<"100">>, <<"agent">>, Config),
    {First, _} = join(Link, Config),
    {Second, _} = join(Two, Config),
    hears(First),
    {200, #{<<"gateway">> := Name}} = ask(get, "/rooms/100", "", Config),
    gateway:kill(proplists:get_value(Name, proplists:get_value(gateways, Config))),
    lobby_case:until(fun() -> case ask(get, "/rooms/100", "", Config) of {200, #{<<"gateway">> := Now}} -> Now =/= Name andalso Now =/= null; _ -> false end end),
    hears(First),
    hears(Second),
    [Id | _] = [Id || #{<<"id">> := Id} <- members("100", Config)],
    {200, _} = ask(post, "/members/" ++ binary_to_list(Id) ++ "/isolate", "", Config),
    ?assertEqual([?SILENT, ?SILENT], [heard(Caller, 300) || Caller <- [First, Second]]).

isolation_is_not_shown(Config) ->
    Link = link_to(<<"100">>, <<"coach">>, Config),
    {_, Place} = join(Link, Config),
    [#{<<"id">> := Id}] = members("100", Config),
    {200, _} = ask(post, "/members/" ++ binary_to_list(Id) ++ "/isolate", "", Config),
    ?assertEqual({200, #{<<"state">> => <<"in">>}}, state(Link, Place, Config)),
    ok = application:set_env(lobby, show_isolation, true),
    ?assertEqual({200, #{<<"state">> => <<"in">>, <<"isolated">> => true}}, state(Link, Place, Config)).
