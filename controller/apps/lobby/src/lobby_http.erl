%%% @doc The HTTP interface and its page, on OTP's httpd. Requests carry a token or a link (RFC 6750), except for those
%%% that fetch the pages' files. A viewer's token can make no changes, and can't read the audit log.
%%%
%%% httpd reads chunked bodies of any size, and waits for a body forever. So this module also customizes httpd: it
%%% rejects chunked bodies, and starts a timer for each body.
-module(lobby_http).

-include_lib("inets/include/httpd.hrl").

-export([start_link/1, do/1, routes/0, request_header/1, response_default_headers/0]).
-export_type([config/0]).

-type config() :: #{http := {inet:ip4_address(), inet:port_number()},
                    tokens := [token()], tls := lobby_socket:tls() | none}.
-type token() :: {Token :: binary(), operator | viewer} | {Token :: binary(), operator | viewer, Name :: binary()}.
-type answer() :: {Status :: pos_integer(), Headers :: [{atom() | string(), string()}], lobby_json:json() | iodata()}
                | {events, lobby_events:watcher()}.
%% A handler's arguments are the name in the path, if any, and the object in the body or, for GET, the request's URI. A
%% handler may also throw a reason.
-type handler() :: fun((binary(), #{binary() => term()} | string()) -> result()).
-type result() :: ok | {ok, lobby_json:json()} | {text | csv, iodata()} | {ok, Id :: binary(), Sdp :: binary()}
                | {error, Reason :: term()} | answer().
-type route() :: {Method :: string(), Path :: binary(), handler() | events}.
%% Files that need no token.
-define(FILES, #{[] => "index.html", [<<"page.js">>] => "page.js", [<<"page.css">>] => "page.css",
                 [<<"join">>] => "join.html", [<<"join.js">>] => "join.js", [<<"openapi.json">>] => "openapi.json"}).
-define(TYPES, #{".html" => "text/html; charset=utf-8", ".js" => "text/javascript", ".css" => "text/css",
                 ".json" => "application/json"}).
-define(MAX_BODY, 65536).
%% The keys of a body that are written to the audit log.
-define(LOGGED, [<<"rules">>, <<"preset">>, <<"door">>, <<"keep">>, <<"role">>, <<"room">>, <<"listener">>,
                 <<"name">>, <<"seconds">>, <<"revoke">>]).
%% The timeouts for the body of a request, in milliseconds, and for its head, in seconds.
-define(BODY, application:get_env(lobby, http_body, 10000)).
-define(HEAD, 10).

-spec start_link(config()) -> {ok, pid()} | {error, term()}.
start_link(#{http := {Address, Port}, tokens := Tokens, tls := Tls}) ->
    ok = persistent_term:put(?MODULE, [known(Token, N) || {N, Token} <- lists:enumerate(Tokens)]),
    Root = code:priv_dir(lobby),
    Options = [{bind_address, Address}, {port, Port}, {server_name, "lobby"}, {server_root, Root},
               {document_root, Root}, {modules, [?MODULE]}, {customize, ?MODULE}, {max_body_size, ?MAX_BODY},
               {max_uri_size, 2048}, {max_clients, 1024}, {keep_alive_timeout, ?HEAD}, {server_tokens, none}
               | [{socket_type, {ssl, lobby_socket:options(Tls)}} || #{http := true} <- [Tls]]],
    lobby_socket:opened(fun() -> inets:start(httpd, Options, stand_alone) end).

%% A token without a name is named after its role and its position in the list.
known({Token, Role, Name}, _) -> {hash(Token), Role, Name};
known({Token, Role}, N) -> {hash(Token), Role, iolist_to_binary([atom_to_list(Role), " ", integer_to_list(N)])}.

%% @doc Checks a header. httpd calls this for each header of a request. `Connection: refused' closes the connection.
-spec request_header({string(), string()}) -> {true, {string(), string()}}.
request_header(Header = {Name, _}) ->
    case string:lowercase(Name) of
        "transfer-encoding" -> {true, {"connection", "refused"}};
        "content-length" ->
            ok = received(),
            _ = put(?MODULE, erlang:send_after(?BODY, self(), timeout)),
            {true, Header};
        _ -> {true, Header}
    end.

%% Stops the body's timer, if it is running.
received() ->
    _ = [erlang:cancel_timer(Timer) || Timer <- [erase(?MODULE)], Timer =/= undefined],
    receive timeout -> ok after 0 -> ok end.

%% @doc Returns headers for all responses, including httpd's own.
-spec response_default_headers() -> [{string(), string()}].
response_default_headers() ->
    [{"content-security-policy", "default-src 'none'; script-src 'self'; style-src 'self'; connect-src 'self'; "
                                 "base-uri 'none'; form-action 'none'; frame-ancestors 'none'"},
     {"x-content-type-options", "nosniff"}, {"x-frame-options", "DENY"}, {"referrer-policy", "no-referrer"}].

%% @doc Answers a request. httpd calls this for each request.
-spec do(#mod{}) -> {proceed, [{response, tuple()}]}.
do(Mod = #mod{socket = Socket, parsed_header = Headers}) ->
    ok = received(),
    %% httpd sends head and body separately. Without this option, the body would wait until TCP has acknowledged the
    %% head.
    _ = lobby_socket:setopts(Socket, [{nodelay, true}]),
    case lists:member({"connection", "refused"}, Headers) orelse answered(Mod) of
        true -> response(failure(411, <<"a body must come with its Content-Length">>));
        {events, Watcher} ->
            ok = lobby_event_stream:run(Socket, Watcher),
            {proceed, [{response, {already_sent, 200, 0}}]};
        {Status, Headers1, Json} when Status >= 500 ->
            {_, Number} = Numbered = proplists:lookup("request-number", Headers1 ++ [number()]),
            ok = logged(Number, Status, Json, Mod),
            response({Status, lists:usort([Numbered | Headers1]), maps:with([error], Json)});
        Answer -> response(Answer)
    end.

%% Returns the answer to a request, even if the handler fails.
answered(Mod = #mod{method = Method, request_uri = Uri}) ->
    caught(fun() ->
        Path = [decoded(Part) || Part <- string:lexemes(hd(string:split(Uri, "?")), "/")],
        answer(Method, Path, Mod)
    end).

caught(Answer) ->
    try Answer()
    catch
        Class:Reason:Stack ->
            {500, [], #{error => <<"an error of the controller">>, reason => {Class, Reason, Stack}}}
    end.

%% Returns a request number. It is unique across restarts on this host, if they are a second apart and the clock isn't
%% set back.
number() ->
    Start = erlang:convert_time_unit(erlang:system_info(start_time) + erlang:time_offset(), native, second),
    {"request-number", integer_to_list((Start bsl 20) + erlang:unique_integer([positive, monotonic]))}.

logged(Number, Status, Json, #mod{method = Method, request_uri = Uri}) ->
    logger:warning("HTTP request ~s: ~s ~0P was answered ~b: ~0P", [Number, Method, Uri, 100, Status, Json, 100]).

response({Status, Headers, Json = #{}}) ->
    response({Status, [{content_type, "application/json"} | Headers], lobby_json:encode(Json)});
response({Status, Headers, Text}) ->
    Length = integer_to_list(iolist_size(Text)),
    Head = [{code, Status}, {content_length, Length}, {cache_control, "no-store"} | Headers],
    {proceed, [{response, {response, Head, [Text]}}]}.

%% Decodes a part of a path. A malformed part becomes empty, which is no name of a room or member.
decoded(Part) ->
    case catch uri_string:percent_decode(unicode:characters_to_binary(Part)) of
        Text when is_binary(Text) -> Text;
        _ -> <<>>
    end.

-spec answer(string(), [binary()], #mod{}) -> answer().
answer("GET", Path, _) when is_map_key(Path, ?FILES) ->
    File = map_get(Path, ?FILES),
    {ok, Bytes} = file:read_file(filename:join(code:priv_dir(lobby), File)),
    {200, [{content_type, map_get(filename:extension(File), ?TYPES)}], Bytes};
answer(Method, [<<"web">> | Id], Mod = #mod{parsed_header = Headers}) ->
    handled(fun() -> web(Method, Id, lobby_link:read(bearer(Headers)), Mod) end);
answer(Method, Path, Mod = #mod{request_uri = Uri, parsed_header = Headers}) ->
    Matching = [{Known, Name, Handler, Route} || {Known, Route, Handler} <- routes(), Name <- name(Route, Path)],
    case {who(Headers), Matching} of
        {false, _} ->
            failure(401, [{'www-authenticate', "Bearer"}],
                    <<"a valid token is required: Authorization: Bearer TOKEN">>);
        {_, []} -> failure(404, <<"there is no such path">>);
        {{Hash, Role, Who}, Routes} -> case lists:keyfind(Method, 1, Routes) of
            {"GET", _, events, _} -> case lobby_events:subscribe({Hash, Role}) of
                ok -> {events, {Hash, Role}};
                {error, too_many} -> failure(503, <<"too many clients are watching with this token">>)
            end;
            {"GET", _, _, Route} when Role =:= viewer, Route =:= <<"/audit">> orelse Route =:= <<"/names">> ->
                failure(403, <<"this token can't read the audit log">>);
            {"GET", Name, Handler, _} -> handled(fun() -> Handler(Name, Uri) end);
            {_, _, _, _} when Role =:= viewer -> failure(403, <<"this token can only read">>);
            {_, Name, Handler, Route} -> handled(fun() -> changed(Handler, Name, Route, Who, Mod) end);
            false ->
                Allowed = lists:append(lists:join(", ", [Known || {Known, _, _, _} <- Routes])),
                failure(405, [{allow, Allowed}], list_to_binary(["allowed methods: ", Allowed]))
        end
    end.

%% Answers a request that was made with a link (WHIP, RFC 9725).
web("GET", [], #{room := Room, name := Name}, _) ->
    {ok, #{room => Room, name => Name, ice_servers => application:get_env(lobby, ice_servers, [])}};
web("POST", [], Link, Mod = #mod{parsed_header = Headers, entity_body = Offer}) ->
    case proplists:get_value("content-type", Headers) of
        "application/sdp" -> lobby_web:join(Link, list_to_binary(Offer), from(Mod));
        _ -> failure(415, <<"an offer must come as application/sdp">>)
    end;
web("GET", [Id], #{number := Number}, _) -> lobby_web:ask(Number, {state, Id});
web("DELETE", [Id], #{number := Number}, _) -> lobby_web:ask(Number, {leave, Id});
web(_, _, _, _) ->
    failure(405, [{allow, "GET, POST, DELETE"}], <<"allowed methods: GET, POST, DELETE">>).

failure(Status, Text) -> failure(Status, [], Text).

failure(Status, Headers, Text) -> {Status, Headers, #{error => Text}}.

%% Makes a change. The audit log gets a line before it, and a line with its answer.
changed(Handler, Name, Route, Who, Mod = #mod{method = Method, entity_body = Body}) ->
    Object = object(list_to_binary(Body)),
    Numbered = {_, Number} = number(),
    Entry = [{request, list_to_integer(Number)}, {by, Who}, {from, from(Mod)},
             {change, iolist_to_binary([Method, " ", Route])} | about(Route, Name, Object)],
    ok = lobby_audit:write([{event, change} | Entry] ++ [{body, maps:with(?LOGGED, Object)}]),
    {Status, Headers, Json} = caught(fun() -> handled(fun() -> Handler(Name, Object) end) end),
    Answer = [{status, Status} | maps:to_list(maps:with([error, number], Json))],
    ok = lobby_audit:write([{event, answer} | Entry] ++ Answer),
    {Status, [Numbered | Headers], Json}.

from(#mod{init_data = #init_data{peername = {_, From}}}) -> list_to_binary(From).

%% Returns the gateway, or the rooms and the member, that a change concerns.
about(<<"/gateways/", _/binary>>, Name, _) ->
    [{gateway, Name}];
about(<<"/links", _/binary>>, _, Object) ->
    [{rooms, Rooms} || Rooms = [_ | _] <- [room_in(Object)]];
about(_, Name, Object) ->
    To = room_in(Object),
    case lobby_member:find(Name) of
        {ok, Row = #{room := Room}} ->
            Caller = lobby_json:named(Row, maps:get(Name, lobby_call:callers([Row]), <<>>)),
            [{rooms, [Room | To]}, {member, Name} | maps:to_list(Caller)];
        error -> [{rooms, [Name | To]}]
    end.

room_in(Object) -> [Room || #{<<"room">> := Room} <- [Object], is_binary(Room)].

query(Uri) ->
    case uri_string:dissect_query(iolist_to_binary(tl(string:split(Uri, "?")))) of
        {error, _, _} -> throw({invalid, <<"the query can't be read">>});
        Pairs -> lobby_audit_core:query(Pairs)
    end.

%% Calls a handler, and converts its result into an answer. A handler can time out, because a room may wait for its
%% gateway, and a call's process for its room.
handled(Handler) ->
    try Handler() of
        ok -> {200, [], #{}};
        {ok, Json} -> {200, [], Json};
        {ok, Id, Sdp} -> {201, [{content_type, "application/sdp"}, {location, "/web/" ++ binary_to_list(Id)}], Sdp};
        {csv, Text} -> {200, [{content_type, "text/csv; charset=utf-8"}], Text};
        {text, Text} -> {200, [{content_type, "text/plain; version=0.0.4"}], Text};
        {error, Reason} -> refused(Reason);
        Answer -> Answer
    catch
        throw:Reason -> refused(Reason);
        exit:{Reason, {_, call, _}} when Reason =:= timeout; element(1, Reason) =:= timeout ->
            failure(504, <<"the gateway hasn't answered yet">>)
    end.

object(<<>>) -> #{};
object(Body) -> lobby_json:decode(Body).

%% Finds a token by its hash, so that the time this takes doesn't reveal the token.
who(Headers) -> lists:keyfind(hash(bearer(Headers)), 1, persistent_term:get(?MODULE)).

bearer(Headers) ->
    case string:prefix(proplists:get_value("authorization", Headers, ""), "Bearer ") of
        nomatch -> <<>>;
        Token -> unicode:characters_to_binary(string:trim(Token))
    end.

hash(Token) -> crypto:hash(sha256, Token).

%% Matches a path against a route. Returns a list with the name at the braces (empty for a route without braces), or an
%% empty list if the path doesn't match.
name(Route, Path) ->
    names(binary:split(Route, <<"/">>, [global, trim_all]), Path, <<>>).

names([<<"{", _/binary>> | Route], [Name | Path], _) -> names(Route, Path, Name);
names([Part | Route], [Part | Path], Name) -> names(Route, Path, Name);
names([], [], Name) -> [Name];
names(_, _, _) -> [].

%% @doc Returns the routes of requests with a token.
-spec routes() -> [route()].
routes() ->
    [{"GET", <<"/rooms">>, fun(_, _) -> {ok, #{rooms => lobby_room:names()}} end},
     {"GET", <<"/rooms/{name}">>, fun(Name, _) -> room(Name) end},
     {"PUT", <<"/rooms/{name}">>, fun create/2},
     {"DELETE", <<"/rooms/{name}">>, fun(Name, _) -> close(Name) end},
     {"POST", <<"/rooms/{name}/rules">>, fun(Name, Object) -> lobby_room:call(Name, {rules, add, rules(Object)}) end},
     {"POST", <<"/rooms/{name}/lock">>, fun(Name, _) -> lobby_room:call(Name, {settings, #{locked => true}}) end},
     {"POST", <<"/rooms/{name}/unlock">>, fun(Name, _) -> lobby_room:call(Name, {settings, #{locked => false}}) end},
     {"POST", <<"/members/{id}/isolate">>,
      fun(Id, Object) -> isolated(Id, true, [true || lobby_json:flag(<<"keep">>, Object)]) end},
     {"POST", <<"/members/{id}/release">>, fun(Id, _) -> isolated(Id, false, [false]) end},
     {"POST", <<"/members/{id}/oneway">>, fun oneway/2},
     {"POST", <<"/members/{id}/mute">>, fun(Id, _) -> lobby_member:change(Id, #{muted => true}) end},
     {"POST", <<"/members/{id}/unmute">>, fun(Id, _) -> lobby_member:change(Id, #{muted => false}) end},
     {"POST", <<"/members/{id}/role">>, fun(Id, Object) -> lobby_member:change(Id, #{role => role(Object)}) end},
     {"POST", <<"/members/{id}/let_in">>,
      fun(Id, Object) -> lobby_member:change(Id, #{role => role(Object), waiting => false}) end},
     {"POST", <<"/members/{id}/move">>,
      fun(Id, Object) -> lobby_member:move(Id, lobby_room:checked(lobby_json:text(<<"room">>, Object))) end},
     {"POST", <<"/members/{id}/hang_up">>, fun hang_up/2},
     {"GET", <<"/gateways">>, fun(_, _) -> {ok, #{gateways => gateways(), rtpengine => lobby_rtpengine:state()}} end},
     {"POST", <<"/gateways/{name}/drain">>, fun(Name, _) -> lobby_gateway:drain(Name, true) end},
     {"POST", <<"/gateways/{name}/resume">>, fun(Name, _) -> lobby_gateway:drain(Name, false) end},
     {"GET", <<"/events">>, events},
     {"POST", <<"/links">>, fun(_, Object) -> {ok, lobby_link:new(Object)} end},
     {"DELETE", <<"/links/{number}">>, fun unlink_from/2},
     {"GET", <<"/audit">>, fun(_, Uri) -> lobby_audit:read(query(Uri)) end},
     {"GET", <<"/names">>, fun names/2},
     {"GET", <<"/metrics">>, fun(_, _) -> {text, lobby_metrics:text()} end}].

%%% Rooms and gateways.

room(Name) ->
    case {lobby_room:call(Name, audit), lobby_room:call(Name, describe)} of
        {Audited, Description = #{members := Members}} ->
            Callers = lobby_call:callers([Row || {Row, _} <- Members]),
            {ok, (lobby_json:room(Name, Description, Callers))#{audited => lists:member(Audited, [same, repaired])}};
        {_, Error} -> Error
    end.

create(Name, Object) ->
    lobby_room:create(lobby_room:checked(Name), rules(Object), #{door => lobby_json:flag(<<"door">>, Object)}).

%% Reads rules. A rule can name only a current member, because it ends with the member's call.
rules(Object) ->
    Rules = lobby_json:rules(Object),
    _ = [throw(no_member) || Id <- lobby_rules:named(Rules), lobby_member:find(Id) =:= error],
    Rules.

close(Name) ->
    case lobby_room:call(Name, {settings, #{kept => false}}) of
        ok -> ok = lobby_member:hang_up_all(Name), left(Name);
        Error -> Error
    end.

%% Waits until the gateway has subtracted the terminations of ended calls, so that these members are no longer heard.
%% Their phones may not have answered yet.
left(Name) ->
    case lobby_room:call(Name, agree) of
        {error, no_such_room} -> ok;
        Result -> Result
    end.

gateways() -> [Load#{name => lobby_gateway:name(Handle)} || {Handle, Load} <- lobby_gateway:serving()].

unlink_from(Number, _) ->
    _ = [throw(no_such_link) || re:run(Number, "^[0-9a-f]{16}$", [dollar_endonly]) =:= nomatch],
    ok = lobby_link:revoke(Number),
    _ = lobby_web:ask(Number, hang_up),
    ok.

names(_, Uri) ->
    Query = query(Uri),
    _ = [throw({invalid, <<"\"gateway\" is missing">>}) || not is_map_key(gateway, Query)],
    {csv, lobby_audit:names(Query)}.

%%% Members.

%% Isolates or releases a member. If the isolation is kept, it also applies to later calls with the same identity.
isolated(Id, IsIsolated, Kept) ->
    _ = [lobby_identity:keep_isolated(Identity, Is)
         || Is <- Kept, {ok, #{identity := Identity}} <- [lobby_member:find(Id)]],
    lobby_member:change(Id, #{isolated => IsIsolated}).

oneway(Id, Object) ->
    Listener = lobby_json:text(<<"listener">>, Object),
    case {row(Id), lobby_member:find(Listener)} of
        {#{room := Room}, {ok, #{room := Room}}} ->
            lobby_room:call(Room, {rules, add, lobby_rules:oneway({member, Id}, {member, Listener})});
        {_, _} -> {error, no_listener}
    end.

row(Id) ->
    case lobby_member:find(Id) of {ok, Row} -> Row; error -> throw(no_member) end.

role(Object) -> lobby_json:text(<<"role">>, Object).

%% Ends a member's call. With `revoke', the member can't join again by the link.
hang_up(Id, Object) ->
    Row = #{room := Room} = row(Id),
    case {lobby_json:flag(<<"revoke">>, Object), Row} of
        {true, #{call := {web, Number}}} -> ok = lobby_link:revoke(Number);
        {true, _} -> throw({invalid, <<"the member hasn't joined by a link">>});
        {false, _} -> ok
    end,
    case lobby_member:hang_up(Id) of ok -> left(Room); Error -> Error end.

refused({invalid, Text}) -> failure(400, Text);
refused({refused, Code}) ->
    failure(502, <<"the gateway rejected the request: error ", (integer_to_binary(Code))/binary>>);
refused(no_such_room) -> failure(404, <<"there is no such room">>);
refused(no_member) -> failure(404, <<"there is no such member">>);
refused(no_gateway) -> failure(404, <<"there is no such gateway">>);
refused(no_listener) -> failure(404, <<"the listener isn't in the member's room">>);
refused(no_link) -> failure(401, <<"the link isn't valid">>);
refused(link_expired) -> failure(401, <<"the link has expired">>);
refused(link_revoked) -> failure(401, <<"the link has been revoked">>);
refused(no_such_link) -> failure(404, <<"there can be no such link">>);
refused(not_here) -> failure(404, <<"you aren't in the room">>);
refused(replaced) -> failure(409, <<"somebody has joined by this link since">>);
refused(no_relay) -> failure(503, <<"rtpengine doesn't answer">>);
refused(no_audit_log) -> failure(404, <<"there is no audit log (audit_log)">>);
refused(too_many_names) -> failure(409, <<"there are more than 1024 names: give a shorter time">>);
refused({two_names, T}) ->
    failure(409, <<"RTP/", (integer_to_binary(T))/binary, " had two members: give a shorter time">>);
refused(same_room) -> failure(409, <<"the member is already in this room">>);
refused(room_locked) -> failure(409, <<"the room is locked">>);
refused(room_full) -> failure(409, <<"the room is full">>);
refused(too_many_rules) -> failure(409, <<"the room would have too many rules">>);
refused(too_many_rooms) -> failure(409, <<"there are too many rooms">>);
refused(no_room) -> failure(503, <<"no gateway has enough capacity">>);
refused(not_yet) ->
    failure(503, <<"the gateway hasn't accepted the change yet; the controller keeps trying">>).
