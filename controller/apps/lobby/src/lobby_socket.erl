%%% @doc Sockets for TCP, or for TLS with the operator's certificate.
-module(lobby_socket).

-export([opened/1, secured/2, options/1, send/2, setopts/2]).
-export_type([socket/0, tls/0, address/0]).

-type socket() :: gen_tcp:socket() | ssl:sslsocket().
-type address() :: {inet:ip4_address(), inet:port_number()}.
%% Files in PEM. If they change, new connections use the new certificate within two minutes (ssl's cache).
-type tls() :: #{certificate := file:filename(), key := file:filename(), _ => _}.
%% The timeout for the TLS handshake, in milliseconds.
-define(HANDSHAKE, 5000).

%% @doc Opens a port. Retries for a second, because the socket of a killed process takes a moment to close.
-spec opened(fun(() -> {ok, Opened} | {error, term()})) -> {ok, Opened} | {error, term()}.
opened(Open) ->
    opened(Open, 50).

opened(Open, Tries) ->
    case Open() of
        {error, _} when Tries > 1 -> timer:sleep(20), opened(Open, Tries - 1);
        Opened -> Opened
    end.

%% @doc Performs the TLS handshake, if any, on an accepted connection, which this process must own. Returns its socket.
-spec secured(gen_tcp:socket(), tls() | none) -> {ok, socket()} | {error, term()}.
secured(Socket, none) -> {ok, Socket};
secured(Socket, Tls) -> ssl:handshake(Socket, options(Tls), ?HANDSHAKE).

%% @doc Returns the options for ssl. Failed handshakes aren't logged, because strangers could flood the log.
-spec options(tls()) -> [ssl:tls_server_option()].
options(#{certificate := Certificate, key := Key}) ->
    [{certfile, Certificate}, {keyfile, Key}, {log_level, emergency}].

%% @doc Sends over TCP or TLS.
-spec send(socket(), iodata()) -> ok | {error, term()}.
send(Socket, Bytes) when is_port(Socket) -> gen_tcp:send(Socket, Bytes);
send(Socket, Bytes) -> ssl:send(Socket, Bytes).

%% @doc Sets options of a TCP or TLS socket.
-spec setopts(socket(), [gen_tcp:option()]) -> ok | {error, term()}.
setopts(Socket, Options) when is_port(Socket) -> inet:setopts(Socket, Options);
setopts(Socket, Options) -> ssl:setopts(Socket, Options).
