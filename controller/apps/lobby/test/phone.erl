%% A SIP phone for tests, which writes and reads its messages as text. Unless it is automatic, it only does what a test
%% asks.
-module(phone).

-export([received/2, automatic/2, automatic/3, start_tcp/2, start_tls/2, send_slowly/2, start/1, start/2, invite/2, invite/3, request/3, request/4, answer/3, answer/4, ack/1, ack/2, recv/1, recv/2, flush/1, sdp/1, sdp/2,
         close/1, port/1, media/1, header/2, status/1, learn/2, send/2, room/2, number/2, quiet/2, as/2, tagged/2]).

%% Milliseconds that a call may take on a busy machine.
-define(PATIENCE, 30000).

-record(phone, {transport = "UDP", socket, port, to, room, call_id, tag, cseq = 0, remote_tag = "", extra = [], caller}).

%% Starts a phone that calls a room, talks continuously, and answers re-INVITEs and BYEs.
automatic(To, Room) -> automatic(To, Room, fun caller:start/0).

%% The phone gets its media from `Start'.
automatic(To, Room, Start) ->
    Parent = self(),
    spawn_link(fun() ->
        Phone = (start(To, Room))#phone{caller = Start()},
        Calling = invite(sdp(Phone), Phone),
        Response = recv(Calling, ?PATIENCE),
        200 = status(Response),
        Talking = learn(Response, Calling),
        ack(Talking),
        talk(Response, Talking),
        Parent ! {self(), media(Talking)},
        answer_all(Talking)
    end),
    receive {Pid, Caller} when is_pid(Pid) -> Caller after ?PATIENCE -> error(no_call) end.

answer_all(P) ->
    Text = recv(P, 1000),
    case status(Text) of
        "INVITE" -> answer(200, Text, sdp(P), P), talk(Text, P);
        "BYE" -> answer(200, Text, P);
        _ -> ok
    end,
    answer_all(P).

talk(Text, P) ->
    {match, [Port]} = re:run(Text, "m=audio (\\d+) ", [{capture, all_but_first, list}]),
    caller:talk(media(P), {{127, 0, 0, 1}, list_to_integer(Port)}).

start(To) -> start(To, "100").

start(To, Room) ->
    {ok, Socket} = gen_udp:open(0, [binary, {ip, {127, 0, 0, 1}}, {active, false}, {recbuf, 1048576}, {buffer, 65536}]),
    {ok, Port} = inet:port(Socket),
    Random = integer_to_list(rand:uniform(1000000000)),
    #phone{socket = Socket, port = Port, to = To, room = Room, call_id = "Call-" ++ Random, tag = "TaG" ++ Random, caller = caller:start()}.

%% Starts a phone that calls over TCP.
start_tcp(To = {Address, ToPort}, Room) ->
    {ok, Socket} = gen_tcp:connect(Address, ToPort, [binary, {active, false}, {nodelay, true}]),
    {ok, Port} = inet:port(Socket),
    P = start(To, Room),
    P#phone{transport = "TCP", socket = Socket, port = Port}.

start_tls(To = {Address, ToPort}, Room) ->
    {ok, Socket} = ssl:connect(Address, ToPort, [binary, {active, false}, {nodelay, true}, {verify, verify_none}]),
    {ok, {_, Port}} = ssl:sockname(Socket),
    P = start(To, Room),
    P#phone{transport = "TLS", socket = Socket, port = Port}.

room(Room, P) -> P#phone{room = Room}.
number(N, P) -> P#phone{cseq = N}.
tagged(Tag, P) -> P#phone{remote_tag = Tag}.
%% Gives another phone the dialog of this phone, so that it can send this phone's requests.
as(#phone{call_id = CallId, tag = Tag, remote_tag = Remote, cseq = N}, P) -> P#phone{call_id = CallId, tag = Tag, remote_tag = Remote, cseq = N}.
port(#phone{port = Port}) -> Port.
media(#phone{caller = Caller}) -> Caller.
close(#phone{transport = "TCP", socket = Socket}) -> gen_tcp:close(Socket);
close(#phone{transport = "TLS", socket = Socket}) -> ssl:close(Socket);
close(#phone{socket = Socket}) -> gen_udp:close(Socket).

sdp(P) -> sdp(P, "sendrecv").

sdp(#phone{caller = Caller}, Direction) ->
    {{_, Port}, _} = caller:media(Caller),
    lists:flatten(io_lib:format("v=0\r\no=- 1 1 IN IP4 127.0.0.1\r\ns=-\r\nc=IN IP4 127.0.0.1\r\nt=0 0\r\nm=audio ~b RTP/AVP 0 8 101\r\na=~s\r\n",
                                [Port, Direction])).

invite(Body, P) -> request("INVITE", Body, P).
invite(Body, Extra, P) -> request("INVITE", Body, Extra, P).

request(Method, Body, P) -> request(Method, Body, [], P).

%% Sends a request with the next number. CANCEL has the number of the last request.
request(Method, Body, Extra, P = #phone{cseq = N}) ->
    Number = case Method of "CANCEL" -> N; _ -> N + 1 end,
    send(message(Method, Number, Body, Extra, P), P),
    P#phone{cseq = Number}.

ack(P) -> ack("", P).
ack(Body, P = #phone{cseq = N}) -> send(message("ACK", N, Body, [], P), P).

message(Method, Number, Body, Extra, #phone{transport = Transport, port = Port, room = Room, to = {_, ToPort}, call_id = CallId, tag = Tag, remote_tag = Remote}) ->
    To = case Remote of "" -> ""; _ -> ";tag=" ++ Remote end,
    %% A CANCEL has the branch of its INVITE.
    Branch = case Method of "CANCEL" -> "INVITE"; _ -> Method end,
    io_lib:format("~s sip:~s@127.0.0.1:~b SIP/2.0\r\nVia: SIP/2.0/~s 127.0.0.1:~b;branch=z9hG4bK-~s-~b-~s;rport\r\nMax-Forwards: 70\r\n"
                  "From: \"Test\" <sip:test@127.0.0.1>;tag=~s\r\nTo: <sip:~s@127.0.0.1>~s\r\nCall-ID: ~s\r\nCSeq: ~b ~s\r\n"
                  "Contact: <sip:test@127.0.0.1:~b>\r\n~s~sContent-Length: ~b\r\n\r\n~s",
                  [Method, Room, ToPort, Transport, Port, CallId, Number, Branch, Tag, Room, To, CallId, Number, Method, Port,
                   [[Line, "\r\n"] || Line <- Extra], case Body of "" -> ""; _ -> "Content-Type: application/sdp\r\n" end, length(Body), Body]).

send(Text, #phone{transport = "TCP", socket = Socket}) -> ok = gen_tcp:send(Socket, Text);
send(Text, #phone{transport = "TLS", socket = Socket}) -> ok = ssl:send(Socket, Text);
send(Text, #phone{socket = Socket, to = {Address, Port}}) -> ok = gen_udp:send(Socket, Address, Port, Text).

recv(P) -> recv(P, 2000).

%% Returns the next message. Skips provisional responses (100) and retransmissions of answered requests, which it
%% answers again.
recv(P, Timeout) ->
    case received(P, Timeout) of
        "SIP/2.0 100" ++ _ -> recv(P, Timeout);
        Text when is_list(Text) -> case get(transaction(Text, P)) of
            undefined -> Text;
            Answer -> send(Answer, P), recv(P, Timeout)
        end;
        Nothing -> Nothing
    end.

transaction(Request, #phone{socket = Socket}) -> {Socket, [header(Name, Request) || Name <- ["Via", "From", "CSeq"]]}.

received(P = #phone{transport = Transport, socket = Socket}, Timeout) when Transport =/= "UDP" ->
    Module = case Transport of "TCP" -> gen_tcp; "TLS" -> ssl end,
    Buffer = case get(Socket) of undefined -> ""; Bytes -> Bytes end,
    case whole(Buffer) of
        {Message, Rest} -> put(Socket, Rest), Message;
        more -> case Module:recv(Socket, 0, Timeout) of
            {ok, Bytes1} -> put(Socket, Buffer ++ binary_to_list(Bytes1)), received(P, Timeout);
            {error, timeout} -> none;
            {error, closed} -> closed
        end
    end;
received(P = #phone{socket = Socket}, Timeout) ->
    case gen_udp:recv(Socket, 0, Timeout) of
        %% This RTP packet is for an earlier user of the port.
        {ok, {_, _, <<2:2, _/bits>>}} -> received(P, Timeout);
        {ok, {_, _, Text}} -> binary_to_list(Text);
        {error, timeout} -> none
    end.

%% Returns the first complete message, and the bytes after it.
whole(Buffer) ->
    case re:run(Buffer, "^(.*?\r\nContent-Length: (\\d+)\r\n\r\n)(.*)$", [dotall, {capture, all_but_first, list}]) of
        {match, [Head, Length, Rest]} when length(Rest) >= 0 ->
            N = list_to_integer(Length),
            case length(Rest) >= N of
                true -> {Head ++ lists:sublist(Rest, N), lists:nthtail(N, Rest)};
                false -> more
            end;
        nomatch -> more
    end.

%% Sends an INVITE in small pieces over TCP.
send_slowly(Body, P = #phone{socket = Socket, cseq = N}) ->
    Text = iolist_to_binary(message("INVITE", N + 1, Body, [], P)),
    Send = fun Send(<<Piece:100/binary, Rest/binary>>) -> ok = gen_tcp:send(Socket, Piece), timer:sleep(5), Send(Rest);
               Send(Rest) -> ok = gen_tcp:send(Socket, Rest)
           end,
    Send(Text),
    P#phone{cseq = N + 1}.

%% Returns whether no message arrives for this many milliseconds.
quiet(P, Ms) -> recv(P, Ms) =:= none.

flush(P) -> case recv(P, 0) of none -> ok; _ -> flush(P) end.

%% Returns the status of a response, or the method of a request.
status(none) -> none;
status(closed) -> closed;
status("SIP/2.0 " ++ Rest) -> list_to_integer(lists:sublist(Rest, 3));
status(Text) -> hd(string:lexemes(Text, " ")).

header(Name, Text) ->
    case re:run(Text, "\r\n" ++ Name ++ ": ([^\r]*)\r\n", [{capture, all_but_first, list}]) of
        {match, [Value]} -> Value;
        nomatch -> none
    end.

%% Takes the other side's tag from the response to an INVITE.
learn(Response, P) ->
    {match, [Tag]} = re:run(header("To", Response), ";tag=([^;]*)", [{capture, all_but_first, list}]),
    P#phone{remote_tag = Tag}.

answer(Status, Request, P) -> answer(Status, Request, "", P).

%% Sends a response to a request.
answer(Status, Request, Body, P = #phone{port = Port}) ->
    Answer = io_lib:format("SIP/2.0 ~b Text\r\nVia: ~s\r\nFrom: ~s\r\nTo: ~s\r\nCall-ID: ~s\r\nCSeq: ~s\r\nContact: <sip:test@127.0.0.1:~b>\r\n"
                           "Content-Length: ~b\r\n\r\n~s",
                           [Status | [header(Name, Request) || Name <- ["Via", "From", "To", "Call-ID", "CSeq"]]] ++ [Port, length(Body), Body]),
    put(transaction(Request, P), Answer),
    send(Answer, P).
