%%% @doc Checks the application's environment before anything starts.
-module(lobby_config).

-export([check/1, load/1]).
-export_type([config/0]).

%% The configuration has all keys of ?TOP, which lists the kinds of their values.
-type config() :: #{gateways := [lobby_gateway:config()], pair := lobby_pair:config() | none, _ => _}.

%% The kind and the default of each value, by key.
-define(TOP, #{gateways => {{list, "a gateway", ?GATEWAY}, required},
               sip => {address, {{127, 0, 0, 1}, 5060}}, t1 => {{10, 5000}, 500}, min_se => {{1, 3600}, 90},
               callers => {networks, []}, proxies => {networks, []}, media => {networks, []},
               users => {users, #{}}, digest => {digest, [md5]},
               max_calls => {{1, 100000}, 1024}, max_calls_from => {share, quarter}, max_rooms_from => {share, quarter},
               messages_from => {{1, 100000}, 200}, new_calls_from => {{1, 100000}, 50},
               silent_after => {{1000, 3600000}, 30000}, room_audit => {{500, 600000}, 5000},
               store => {store, memory}, pair => {{part, "the pair", ?PAIR}, none}, tls => {{part, "tls", ?TLS}, none},
               roles => {roles, []}, audit_log => {{part, "the audit log", ?AUDIT_LOG}, none},
               rtpengine => {address, none}, ice_servers => {ice_servers, []}, show_isolation => {boolean, false},
               http => {address, {{127, 0, 0, 1}, 8080}}, tokens => {tokens, []}}).
-define(GATEWAY, #{name => {text, required}, address => {address, required}, here => {ip, {127, 0, 0, 1}},
                   retry => {{10, 5000}, 100}, tries => {{1, 20}, 4}, quiet => {{100, 60000}, 5000},
                   audit => {{50, 60000}, 250}, returns => {{0, 20000}, 0},
                   terminations => {{1, 256}, 256}, contexts => {{1, 64}, 64}}).

-define(TLS, #{certificate => {path, required}, key => {path, required},
               sip => {address, none}, http => {boolean, false}}).

-define(AUDIT_LOG, #{file => {file, required}, bytes => {{65536, 1 bsl 30}, 16777216}, files => {{1, 1000}, 9}}).

-define(PAIR, #{self => {node, required}, peer => {node, required}, cookie => {secret, required},
                lease => {lease, address}, ready => {file, none}, gap => {{100, 2500}, 250}}).

%% @doc Returns the configuration with defaults, or a text that describes an error in it.
-spec check([{atom(), term()}]) -> {ok, config()} | {error, string()}.
check(Env) ->
    caught(fun() -> checked(Env) end).

caught(Check) ->
    try {ok, Check()} catch throw:{wrong, Text} -> {error, Text} end.

checked(Env) ->
    Config = values("the configuration", ?TOP, maps:from_list(Env)),
    #{gateways := Gateways, pair := Pair, store := Store} = Config,
    Names = [Name || #{name := Name} <- Gateways],
    _ = [wrong("a pair needs {store,disc}", []) || Pair =/= none, Store =:= memory],
    %% With a longer gap, keepalived might give the address to the other host before the gap has passed.
    _ = [wrong("gap must be at most 250, unless lease is a file", []) || #{lease := address, gap := Gap} <- [Pair], Gap > 250],
    _ = [wrong("self and peer are both ~0p", [Node]) || #{self := Node, peer := Node} <- [Pair]],
    _ = [wrong("two gateways have the name ~0p", [Name]) || Name <- Names -- lists:usort(Names)],
    shares(Config).

%% @doc Loads the environment of all applications from a file, if this application's part is valid. The file contains a
%% list as in `sys.config', such as `[{lobby, [{gateways, [..]}]}].'
-spec load(file:filename()) -> {ok, config()} | {error, string()}.
load(File) ->
    caught(fun() ->
        {Applications, Env} = consulted(File),
        Config = checked(Env),
        ok = application:set_env(Applications),
        Config
    end).

consulted(File) ->
    case file:consult(File) of
        {ok, [Applications]} -> {Applications, environment(File, Applications)};
        {ok, _} -> wrong("~ts must contain one list, followed by a full stop", [File]);
        {error, Reason} -> wrong("~ts: ~ts", [File, file:format_error(Reason)])
    end.

environment(File, Applications) ->
    case holds(all(fun is_application/1), Applications) andalso lists:keyfind(lobby, 1, Applications) of
        {lobby, Env} -> Env;
        false -> wrong("~ts must contain a list such as [{lobby,[{gateways,[..]}]}]", [File])
    end.

is_application({Name, Env}) -> is_atom(Name) andalso lists:all(fun({Key, _}) -> is_atom(Key) end, Env).

%% Fills in the limits for one address: by default, a quarter of the gateways' capacity.
shares(Config = #{gateways := Gateways, max_calls_from := Calls, max_rooms_from := Rooms}) ->
    Share = fun(quarter, Key) -> max(1, lists:sum([maps:get(Key, Gateway) || Gateway <- Gateways]) div 4);
               (Number, _) -> Number
            end,
    Config#{max_calls_from := Share(Calls, terminations), max_rooms_from := Share(Rooms, contexts)}.

values(What, Kinds, Values) when is_map(Values) ->
    _ = [wrong("~s has the unknown key ~0p", [What, Unknown]) || Unknown <- maps:keys(Values) -- maps:keys(Kinds)],
    maps:map(fun(Key, Known = {_, Default}) -> value(What, Key, Known, maps:get(Key, Values, Default)) end, Kinds);
values(What, _, Other) ->
    wrong("~s must be a map, not ~0p", [What, Other]).

value(What, Key, {_, required}, required) -> wrong("~s must have the key ~0p", [What, Key]);
value(_, _, {_, Default}, Default) -> Default;
value(_, _, {{part, What, Kinds}, _}, Value) when is_map(Value) -> values(What, Kinds, Value);
value(_, _, {{list, What, Kinds}, _}, Values = [_ | _]) -> [values(What, Kinds, Value) || Value <- Values];
value(_, Key, {Kind, _}, Value) ->
    case is(Kind, Value) of
        true -> Value;
        false -> wrong("~0p must be ~s, not ~0p", [Key, element(1, kind(Kind)), Value])
    end.

-spec wrong(io:format(), [term()]) -> no_return().
wrong(Format, Values) ->
    throw({wrong, lists:flatten(io_lib:format(Format, Values))}).

is(Kind, Value) -> holds(element(2, kind(Kind)), Value).

%% Returns whether a test holds. A malformed value may match no clause of the test.
holds(Is, Value) ->
    try Is(Value) catch error:_ -> false end.

%% Returns a description and a test for the values of a kind, except for the default.
kind({list, _, _}) -> {"a list of at least one gateway", fun(_) -> false end};
kind({part, _, _}) -> {"a map or none", fun is_map/1};
kind(tokens) ->
    {"a list of tokens such as {<<\"sixteen bytes or more\">>,operator} (or viewer; a third element names who has it)",
     all(fun is_token/1)};
kind(roles) ->
    {"a list such as {{user,<<\"ann\">>},<<\"coach\">>}, {{network,{{192,0,2,0},24}},<<\"agent\">>} or "
     "{header,<<\"x-role\">>,[{{192,0,2,9},32}]} (in lower case, and not one that the controller itself uses)",
     all(fun is_role/1)};
kind(networks) -> {"a list of networks such as {{192,0,2,0},24}", all(fun is_network/1)};
kind(users) ->
    {"a map from names to passwords, all of them non-empty binaries",
     fun(Users) -> lists:all(fun is_text/1, maps:keys(Users) ++ maps:values(Users)) end};
kind(node) ->
    {"a node's name such as 'lobby@10.0.0.20'",
     fun(Node) -> re:run(atom_to_list(Node), "^[^@]+@[^@]+$", [dollar_endonly]) =/= nomatch end};
kind(secret) ->
    {"a binary of 16 to 255 bytes", fun(Secret) -> is_text(Secret) andalso is({16, 255}, byte_size(Secret)) end};
kind(lease) -> {"address or {file,\"/path\"}", fun({file, File}) -> is_path(File) end};
kind(path) -> {"the path of a file", fun(Path) -> is_path(Path) andalso filelib:is_regular(Path) end};
kind(file) -> {"a path such as \"/path\"", fun is_path/1};
kind(ice_servers) ->
    {"a list of maps such as #{urls => <<\"turn:192.0.2.9:3478\">>,username => <<\"a\">>,credential => <<\"b\">>}",
     all(fun(Server = #{urls := _}) -> maps:keys(Server) -- [urls, username, credential] =:= []
             andalso lists:all(fun is_text/1, maps:values(Server)) end)};
kind(boolean) -> {"true or false", fun is_boolean/1};
kind(share) -> {"quarter or a whole number from 1 to 100000", element(2, kind({1, 100000}))};
kind(digest) ->
    {"a list of md5 and sha256", fun(Value) -> lists:member(lists:sort(Value), [[md5], [sha256], [md5, sha256]]) end};
kind(store) -> {"memory or disc", fun(Value) -> lists:member(Value, [memory, disc]) end};
kind(text) -> {"a non-empty binary", fun is_text/1};
kind(ip) -> {"an IPv4 address such as {127,0,0,1}", fun inet:is_ipv4_address/1};
kind(address) -> {"an IPv4 address and a port such as {{127,0,0,1},2944}", fun is_address/1};
kind({Min, Max}) ->
    {io_lib:format("a whole number from ~b to ~b", [Min, Max]),
     fun(Value) -> is_integer(Value) andalso Value >= Min andalso Value =< Max end}.

all(Is) -> fun(Values) -> lists:all(Is, Values) end.

is_text(Value) -> is_binary(Value) andalso Value =/= <<>>.

is_path(Value) -> Value =/= [] andalso io_lib:printable_list(Value).

is_address({Address, Port}) -> inet:is_ipv4_address(Address) andalso is({1, 65535}, Port).

is_network({Address, Bits}) -> inet:is_ipv4_address(Address) andalso is({0, 32}, Bits).

is_role({header, Name, Proxies}) ->
    is_text(Name) andalso Name =:= string:lowercase(Name) andalso not lobby_sip_decoder:reads(Name)
        andalso Proxies =/= [] andalso is(networks, Proxies);
is_role({Who, Role}) ->
    is_text(Role) andalso byte_size(Role) =< 32 andalso case Who of
        {user, User} -> is_text(User);
        {network, Network} -> is_network(Network)
    end.

is_token({Token, Role, Name}) ->
    is_text(Name) andalso byte_size(Name) =< 64 andalso is_token({Token, Role});
is_token({Token, Role}) ->
    is_binary(Token) andalso byte_size(Token) >= 16 andalso lists:member(Role, [operator, viewer]).
