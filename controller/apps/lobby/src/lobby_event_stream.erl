%%% @doc Server-sent events over a connection of httpd. The connection's process stays here until the browser or the
%%% server closes the connection.
-module(lobby_event_stream).

-export([run/2]).

%% Milliseconds without an event after which a comment is sent, to notice that a browser has gone.
-define(QUIET, 10000).

%% @doc Sends events to a subscribed client. At the end, sends the calling process the message that makes httpd close
%% the connection.
-spec run(lobby_socket:socket(), lobby_events:watcher()) -> ok.
run(Socket, Watcher) ->
    %% A browser that doesn't read is disconnected, so that its queue stays small.
    _ = lobby_socket:setopts(Socket, [{active, once}, {sndbuf, 65536}, {send_timeout, 2000},
                                      {send_timeout_close, true}]),
    End = loop(Socket, lobby_socket:send(Socket, ["HTTP/1.1 200 OK\r\nContent-Type: text/event-stream\r\n"
                                                  "Cache-Control: no-store\r\nConnection: close\r\n\r\n"])),
    ok = lobby_events:unsubscribe(Watcher),
    self() ! End,
    ok.

%% Returns the message that a closed socket sends.
closed(Socket) when is_port(Socket) -> {tcp_closed, Socket};
closed(Socket) -> {ssl_closed, Socket}.

loop(Socket, ok) ->
    receive
        {lobby_event, Event} -> loop(Socket, lobby_socket:send(Socket, [text(E) || E <- waiting([Event])]));
        Exit = {'EXIT', _, _} -> Exit;
        %% A newer client uses the token, or the browser has closed the connection or sent data, which it shouldn't.
        Message when Message =:= lobby_events_end; element(2, Message) =:= Socket -> closed(Socket)
    after ?QUIET -> loop(Socket, lobby_socket:send(Socket, ":\n\n"))
    end;
loop(Socket, {error, _}) ->
    closed(Socket).

%% Collects the events that are waiting, each once, in the order of their last occurrence.
waiting(Events) ->
    receive
        {lobby_event, Event} -> waiting([Event | Events])
    after 0 ->
        lists:reverse(lists:uniq(Events))
    end.

text({room, Name}) -> text("room", #{name => Name});
text({gateway, Name, State}) -> text("gateway", #{name => Name, state => State}).

text(Event, Json) -> ["event: ", Event, "\ndata: ", lobby_json:encode(Json), "\n\n"].
