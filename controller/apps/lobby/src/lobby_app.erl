%%% @doc The OTP application, the command that starts it, and the operator's commands for a pair.
-module(lobby_app).
-behaviour(application).

-export([run/1, create/1, alone/1, leave/1, start/2, stop/1]).

%% @doc Starts the application on its own node, with the configuration in a file: `erl -run lobby_app run FILE'. Ends
%% the node with status 2 if the configuration is invalid or the store's format is unknown, and with status 1 after any
%% other error.
-spec run([file:filename()]) -> ok.
run([File]) ->
    _ = configured(File),
    case application:ensure_all_started(lobby) of
        {ok, _} -> _ = spawn(fun watch/0), ok;
        {error, {lobby, {{shutdown, {failed_to_start_child, lobby_store, {unknown_version, Table}}}, _}}} ->
            stop(2, io_lib:format("~s was written by another release. Nothing was changed", [Table]));
        {error, Reason} -> stop(1, io_lib:format("~0P", [Reason, 30]))
    end.

%% @doc Runs a command for a pair while the controller is stopped: `erl -run lobby_app create FILE'. `alone' and `leave'
%% are called in the same way. See `lobby_pair'.
-spec create([file:filename()]) -> no_return().
create([File]) -> command(create, File).

-spec alone([file:filename()]) -> no_return().
alone([File]) -> command(alone, File).

-spec leave([file:filename()]) -> no_return().
leave([File]) -> command(leave, File).

-spec command(lobby_pair:command(), file:filename()) -> no_return().
command(Command, File) ->
    case configured(File) of
        none -> stop(2, "the configuration has no pair");
        Pair -> case lobby_pair:command(Command, Pair) of
            ok -> halt(0);
            {error, Reason} -> stop(1, io_lib:format("~s: ~0P", [Command, Reason, 30]))
        end
    end.

%% Loads the configuration. Returns the pair, after naming this node, or `none'.
configured(File) ->
    ok = application:load(lobby),
    case lobby_config:load(File) of
        {error, Text} -> stop(2, Text);
        {ok, #{pair := none}} -> none;
        {ok, #{pair := Pair = #{self := Self}}} -> case lobby_pair:distribute(Pair) of
            ok -> Pair;
            {error, Reason} -> stop(1, io_lib:format("can't start the node ~0p: ~0P", [Self, Reason, 30]))
        end
    end.

%% Ends the node when the application or its store ends, so that the service manager starts a new node. Mnesia, for
%% example, ends when the disk is full.
watch() ->
    _ = [monitor(process, Name) || Name <- [lobby_sup, mnesia_sup]],
    receive
        {'DOWN', _, process, {Name, _}, Reason} -> case init:get_status() of
            {stopping, _} -> ok;
            _ -> stop(1, io_lib:format("~s ended: ~0P", [what(Name), Reason, 30]))
        end
    end.

what(lobby_sup) -> "the application";
what(mnesia_sup) -> "the store".

-spec stop(1 | 2, iodata()) -> no_return().
stop(Status, Text) ->
    io:format(standard_error, "lobby: ~ts~n", [Text]),
    halt(Status).

-spec start(application:start_type(), term()) -> {ok, pid()} | {error, term()}.
start(_, _) ->
    case lobby_config:check(application:get_all_env(lobby)) of
        {ok, Config} ->
            ok = loaded(),
            logger:notice("calls to sip:ROOM@~s may come from ~s, ~s", allowed(Config)),
            lobby_sup:start_link(with_token(Config));
        {error, Text} -> {error, {bad_configuration, Text}}
    end.

%% Loads the modules that a call needs, so that the first caller doesn't wait for them.
loaded() ->
    {ok, Modules} = application:get_key(lobby, modules),
    code:ensure_modules_loaded([esip, esip_codec, gen_statem, re, sets | Modules]).

%% Describes, for the log, the SIP address, the networks of callers, and whether callers need a password.
allowed(#{sip := {Address, Port}, callers := Callers, users := Users}) ->
    [[inet:ntoa(Address), [[":", integer_to_list(Port)] || Port =/= 5060]],
     case Callers of
         [] -> "any address";
         _ -> lists:join(", ", [io_lib:format("~s/~b", [inet:ntoa(Network), Bits]) || {Network, Bits} <- Callers])
     end,
     case map_size(Users) of 0 -> "without a password"; _ -> "with a password" end].

%% Creates a token if none is configured. Only the log shows this token.
with_token(Config = #{tokens := [], http := {Address, Port}}) ->
    Token = string:lowercase(binary:encode_hex(crypto:strong_rand_bytes(16))),
    logger:notice("the page is http://~s:~b/ and asks for the token ~s", [inet:ntoa(Address), Port, Token]),
    Config#{tokens := [{Token, operator}]};
with_token(Config) ->
    Config.

-spec stop(term()) -> ok.
stop(_) ->
    ok.
