%%% @doc Decodes SIP messages (RFC 3261, section 25) in linear time, into esip's records.
%%%
%%% esip 1.0.49 reads a list of addresses in quadratic time (58 KB of Contact take half a minute), and can't read IPv6
%%% addresses in URIs. So the controller reads messages with this module, and writes them with esip. This module skips
%%% headers that the controller doesn't use.
-module(lobby_sip_decoder).

-include_lib("p1_sip/include/esip.hrl").

-export([decode/1, reads/1, uri/1]).

%% The maximum size of a head in bytes, and its maximum number of lines, values and parameters. Such a head takes less
%% than a millisecond.
-define(MAX_HEAD, 8192).
-define(MAX_PARTS, 160).
%% The headers that are read, by name, in addition to those in `roles'. The short names come from section 7.3.3 and RFC
%% 4028.
-define(KEYS, #{<<"via">> => via, <<"v">> => via, <<"from">> => from, <<"f">> => from, <<"to">> => to, <<"t">> => to,
                <<"call-id">> => 'call-id', <<"i">> => 'call-id', <<"cseq">> => cseq, <<"contact">> => contact,
                <<"m">> => contact, <<"record-route">> => 'record-route', <<"max-forwards">> => 'max-forwards',
                <<"expires">> => expires, <<"session-expires">> => 'session-expires', <<"x">> => 'session-expires',
                <<"min-se">> => 'min-se', <<"content-type">> => 'content-type', <<"c">> => 'content-type',
                <<"content-length">> => 'content-length', <<"l">> => 'content-length', <<"require">> => require,
                <<"content-encoding">> => 'content-encoding', <<"e">> => 'content-encoding', <<"accept">> => accept,
                <<"supported">> => supported, <<"k">> => supported, <<"authorization">> => authorization,
                <<"p-asserted-identity">> => 'p-asserted-identity'}).
-define(HOST, "(\\[[0-9A-Fa-f:.]+\\]|[A-Za-z0-9_.-]+)").

%% @doc Returns whether this is the name, in lower case, of a header that the controller itself uses. Such a header can't
%% be that of a role.
-spec reads(Name :: binary()) -> boolean().
reads(Name) -> is_map_key(Name, ?KEYS).

%% @doc Decodes a message. If a request can be answered, but not served, returns the status of the answer. A malformed
%% header stays as text. If a header that isn't a list occurs twice, only the first one is kept, and the message counts
%% as malformed.
-spec decode(binary()) -> {ok | 400 | 505, #sip{}} | {error, not_sip}.
decode(Datagram) ->
    case binary:split(Datagram, <<"\r\n\r\n">>) of
        [Head, Body] when byte_size(Head) =< ?MAX_HEAD ->
            Separators = binary:matches(Head, [<<",">>, <<";">>, <<"&">>, <<"\n">>]),
            head(Head, length(Separators), Body);
        _ -> {error, not_sip}
    end.

head(Head, Parts, Body) when Parts =< ?MAX_PARTS ->
    %% A line that begins with white space continues the previous line (section 7.3.1).
    Unfolded = binary:replace(Head, [<<"\r\n ">>, <<"\r\n\t">>], <<" ">>, [global]),
    [First | Lines] = binary:split(Unfolded, <<"\r\n">>, [global]),
    case start_line(binary:split(First, <<" ">>, [global])) of
        {Status, Message} -> with_headers(Lines, Status, Message#sip{body = Body});
        error -> {error, not_sip}
    end;
head(_, _, _) ->
    {error, not_sip}.

start_line([<<"SIP/2.0">>, Code | Reason]) ->
    case read(fun(Text) -> number(Text, 699) end, Code) of
        {ok, Status} when Status >= 100 ->
            {ok, #sip{type = response, status = Status, reason = iolist_to_binary(Reason)}};
        _ -> error
    end;
start_line(Words = [Method, Uri | Rest]) ->
    Version = upper(lists:last([<<>> | [Word || Word <- Words, Word =/= <<>>]])),
    case {read(fun(Text) -> match(Text, token) end, Method), Version, length(Rest), read(fun uri/1, Uri)} of
        {{ok, _}, <<"SIP/2.0">>, 1, {ok, Read}} -> {ok, #sip{type = request, method = Method, uri = Read}};
        {{ok, _}, <<"SIP/2.0">>, _, _} -> {400, #sip{type = request, method = Method}};
        {{ok, _}, <<"SIP/", _/binary>>, _, _} -> {505, #sip{type = request, method = Method}};
        {_, _, _, _} -> error
    end;
start_line(_) ->
    error.

with_headers(Lines, Status, Message = #sip{type = Type, method = Method}) ->
    Read = [Header || Line <- Lines, Header <- header(Line, Method)],
    Headers = lists:uniq(fun once/1, [Header || Header <- Read, Header =/= bad]),
    IsGood = length(Headers) =:= length(Read) andalso lists:all(fun({Name, _}) -> is_atom(Name) end, Headers),
    case {Type, lists:keytake(cseq, 1, Headers)} of
        {response, {value, {cseq, {Number, Of}}, Others}} when IsGood ->
            {ok, Message#sip{method = Of, hdrs = [{cseq, Number} | Others]}};
        {response, _} -> {error, not_sip};
        {request, _} when IsGood; Status =/= ok -> {Status, Message#sip{hdrs = Headers}};
        {request, _} -> {400, Message#sip{hdrs = Headers}}
    end.

%% Returns a key that identifies duplicate headers. Only headers with lists may occur more than once.
once({role, {Name, _}}) -> Name;
once({_, Values}) when is_list(Values) -> make_ref();
once({Name, _}) -> Name.

%% Reads a header line. The method in CSeq must be the request's method.
header(Line, Method) ->
    case {binary:split(Line, <<":">>), binary:match(Line, [<<"\r">>, <<"\n">>])} of
        {[Name, Value], nomatch} -> case maps:get(lower(trim(Name)), ?KEYS, unused) of
            unused -> [{role, {Known, trim(Value)}}
                       || Known <- lists:usort([K || {header, K, _} <- application:get_env(lobby, roles, [])]),
                          Known =:= lower(trim(Name))];
            Key -> case read(fun(Text) -> value(Key, Text) end, trim(Value)) of
                {ok, {Number, Method}} when Key =:= cseq -> [{cseq, Number}];
                {ok, Read} when Key =/= cseq; Method =:= undefined -> [{Key, Read}];
                _ -> [{atom_to_binary(Key), trim(Value)}]
            end
        end;
        {_, _} -> [bad]
    end.

%% Applies a reader to a text. A malformed text matches no clause of the reader.
read(Reader, Text) ->
    try {ok, Reader(Text)} catch error:_ -> error end.

%% Reads a header's value. A Via may have superfluous separators, because the response needs it.
value(via, Text) -> [via(Item) || Item <- values(Text), re:run(Item, "[^;]") =/= nomatch];
value(contact, <<"*">>) -> <<"*">>;
value(Key, Text) when Key =:= from; Key =:= to -> [Address] = values(Text), address(Address);
%% Two contacts suffice to find out that there is more than one.
value(contact, Text) -> [address(Item) || Item <- lists:sublist(values(Text), 2)];
value('record-route', Text) -> [address(Item) || Item <- values(Text)];
value('p-asserted-identity', Text) -> [address(hd(values(Text)))];
value('call-id', Text) -> [CallId] = words(Text), CallId;
value(cseq, Text) -> [Number, Method] = words(Text), {number(Number, 16#7FFFFFFF), Method};
value('content-length', Text) -> number(Text, 16#7FFFFFFF);
value('max-forwards', Text) -> number(Text, 255);
value(expires, Text) -> seconds(Text);
value(Key, Text) when Key =:= 'session-expires'; Key =:= 'min-se' ->
    {Seconds, Params} = typed(Text),
    {seconds(Seconds), Params};
value('content-type', Text) -> typed(Text);
value(accept, Text) -> [typed(Item) || Item <- values(Text), Item =/= <<>>];
value(authorization, Text) ->
    [Scheme, Rest] = binary:split(Text, <<" ">>),
    [{lower(Scheme), [param(Item) || Item <- values(Rest)]}];
value(_, Text) -> [lower(Item) || Item <- values(Text)].

%% Reads seconds. More than a day counts as a day, so that the time fits into a timer.
seconds(Text) -> min(number(Text, infinity), 86400).

number(Text = <<Digit, _/binary>>, Max) when Digit >= $0, Digit =< $9, byte_size(Text) =< 80 ->
    case binary_to_integer(Text) of Number when Number =< Max -> Number end.

words(Text) -> binary:split(Text, [<<" ">>, <<"\t">>], [global, trim_all]).

values(Text) -> split(Text, $,).

match(Text, Name) ->
    {match, Found} = re:run(Text, compiled(Name), [{capture, all_but_first, binary}]),
    Found.

%% Returns a compiled pattern from a cache, because compiling takes longer than matching.
compiled(Name) ->
    case persistent_term:get({?MODULE, Name}, none) of
        none ->
            {ok, Compiled} = re:compile(pattern(Name), [dollar_endonly]),
            ok = persistent_term:put({?MODULE, Name}, Compiled),
            Compiled;
        Compiled -> Compiled
    end.

pattern(token) -> "^[A-Za-z0-9.!%*_+`'~-]+$";
pattern(sent) -> "^([A-Za-z]+)\\s*/\\s*([0-9])\\.([0-9])\\s*/\\s*([^\\s/]+)\\s+" ?HOST "(?:\\s*:\\s*([0-9]{1,5}))?$";
%% An address: a name with a URI in angle brackets, or a URI without parameters of its own (section 20).
pattern(address) -> "^(?|(\"(?:[^\"\\\\]++|\\\\.)*+\"\\s*|[^\"<>,]*)<([^<>\\s]+)>()|()()([^\\s<>?,\"]+))$";
pattern(uri) -> "^([A-Za-z][A-Za-z0-9+.-]*):([^\\s<>]+)$";
pattern(sip) ->
    "^([Ss][Ii][Pp][Ss]?):(?:([^@\\s<>]+)@)?" ?HOST "(|:[0-9]{1,5})((?:;[^;?\\s<>]+)*+)((?:\\?[^\\s<>]*)?)$".

typed(Text) ->
    [Type | Params] = split(Text, $;),
    {lower(Type), [param(Param) || Param <- Params]}.

param(Text) ->
    [Key | Value] = [trim(Part) || Part <- binary:split(Text, <<"=">>)],
    true = Key =/= <<>>,
    {lower(Key), iolist_to_binary(Value)}.

via(Text) ->
    [Sent | Params] = split(Text, $;),
    [Protocol, Major, Minor, Transport, Host | Port] = match(Sent, sent),
    #via{proto = Protocol, version = {binary_to_integer(Major), binary_to_integer(Minor)},
         transport = upper(Transport), host = Host, port = port(Port),
         params = [param(Param) || Param <- Params, Param =/= <<>>]}.

port([Text]) -> number(Text, 65535);
port([]) -> undefined.

address(Text) ->
    [First | Params] = split(Text, $;),
    [Name, Inner, Bare] = match(First, address),
    {trim(Name), uri(<<Inner/binary, Bare/binary>>), [param(Param) || Param <- Params]}.

%% @doc Reads a URI. If its scheme isn't sip or sips, reads only the scheme.
-spec uri(binary()) -> #uri{}.
uri(Text) ->
    case re:run(Text, compiled(sip), [{capture, all_but_first, binary}]) of
        {match, [Scheme, UserInfo, Host, Port, Params, Headers]} ->
            [User | Password] = binary:split(UserInfo, <<":">>),
            #uri{scheme = lower(Scheme), user = User, password = iolist_to_binary(Password), host = lower(Host),
                 port = port([Digits || <<":", Digits/binary>> <- [Port]]),
                 params = [param(Param) || Param <- tl(binary:split(Params, <<";">>, [global]))],
                 hdrs = [param(Header) || <<"?", All/binary>> <- [Headers],
                                          Header <- binary:split(All, <<"&">>, [global])]};
        nomatch ->
            [Scheme, Rest] = match(Text, uri),
            false = lists:member(lower(Scheme), [<<"sip">>, <<"sips">>]),
            #uri{scheme = lower(Scheme), host = Rest}
    end.

%% Convert only ASCII letters, because messages needn't be valid UTF-8.
lower(Text) -> << <<(if Byte >= $A, Byte =< $Z -> Byte + 32; true -> Byte end)>> || <<Byte>> <= Text >>.
upper(Text) -> << <<(if Byte >= $a, Byte =< $z -> Byte - 32; true -> Byte end)>> || <<Byte>> <= Text >>.

trim(<<Space, Rest/binary>>) when Space =:= $\s; Space =:= $\t -> trim(Rest);
trim(Text) -> trim_end(Text).

trim_end(Text) ->
    case Text =/= <<>> andalso lists:member(binary:last(Text), " \t") of
        true -> trim_end(binary:part(Text, 0, byte_size(Text) - 1));
        false -> Text
    end.

%% Splits a text at a character, except within quotes and angle brackets.
split(Text, At) -> [trim(binary:part(Text, From, To - From)) || {From, To} <- parts(Text, At, 0, 0, plain)].

parts(<<At, Rest/binary>>, At, From, To, plain) -> [{From, To} | parts(Rest, At, To + 1, To + 1, plain)];
parts(<<$\\, _, Rest/binary>>, At, From, To, quoted) -> parts(Rest, At, From, To + 2, quoted);
parts(<<Char, Rest/binary>>, At, From, To, Where) -> parts(Rest, At, From, To + 1, next(Char, Where));
parts(<<>>, _, From, To, plain) -> [{From, To}].

next($", plain) -> quoted;
next($", quoted) -> plain;
next($<, plain) -> brackets;
next($>, brackets) -> plain;
next(_, Where) -> Where.
