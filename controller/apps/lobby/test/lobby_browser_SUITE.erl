%% Tests members who join by links from Chromium, through rtpengine, together with two phones. Each member plays a tone.
%% Each packet that a member receives is searched for all tones; a browser's packets are searched after Chromium has
%% decrypted them. No test depends on timing. Without the Debian packages chromium and rtpengine-daemon, the suite is
%% skipped.
-module(lobby_browser_SUITE).

-include_lib("common_test/include/ct.hrl").
-include_lib("stdlib/include/assert.hrl").

-compile([export_all]).

-define(OPERATOR, "operator-token-0001").
-define(TALKERS, #{first => 400, second => 1600, coach => 1000, customer => 2200}).
%% Milliseconds after which a wait counts as failed, even on a busy machine.
-define(LIMIT, 120000).
%% The number of packets to search: half a second of speech.
-define(PACKETS, 25).

suite() -> [{timetrap, {minutes, 15}}].

all() ->
    [who_hears_whom, a_link_has_one_member, what_is_lost_is_joined_again, a_door, why_nobody_gets_in, the_page_is_for_everybody].

init_per_suite(Config) ->
    case [Program || Program <- ["chromium", "rtpengine"], os:find_executable(Program) =:= false] of
        [] ->
            [{Who, chromium:start(folder(Who, Config), map_get(Who, ?TALKERS))} || Who <- [coach, customer]] ++ Config;
        Missing -> {skip, lists:append(["missing: " | lists:join(", ", Missing)])}
    end.

end_per_suite(Config) ->
    [begin
         ok = chromium:stop(proplists:get_value(Who, Config)),
         file:del_dir_r(folder(Who, Config))
     end || Who <- [coach, customer]],
    ok.

folder(Who, Config) -> filename:join(proplists:get_value(priv_dir, Config), Who).

init_per_testcase(_, Config) ->
    {ok, _} = application:ensure_all_started(inets),
    ok = application:load(lobby),
    heard = ets:new(heard, [named_table, public, ordered_set]),
    Gateway = gateway:start(["--symmetric-rtp"]),
    [Sip, Http, Ng] = [gateway:free_address() || _ <- [1, 2, 3]],
    Env = [{gateways, [gateway:config(<<"a">>, Gateway)]}, {sip, Sip}, {http, Http}, {rtpengine, Ng}, {tokens, [{<<?OPERATOR>>, operator}]}],
    [ok = application:set_env(lobby, Key, Value) || {Key, Value} <- Env],
    Relay = relayed(Ng),
    {ok, _} = application:ensure_all_started(lobby),
    wait(fun() -> length(lobby_gateway:serving()) =:= 1 andalso lobby_rtpengine:state() =:= serving end),
    {_, Port} = Http,
    Origin = "http://127.0.0.1:" ++ integer_to_list(Port),
    Tabs = [{Who, tab_for(proplists:get_value(Who, Config), Origin)} || Who <- [coach, customer]],
    Tabs ++ [{sip, Sip}, {origin, Origin}, {ng, Ng}, {relay, Relay} | Config].

end_per_testcase(_, Config) ->
    [chromium:close(proplists:get_value(Who, Config)) || Who <- [coach, customer]],
    ok = end_relay(proplists:get_value(relay, Config)),
    ok = lobby_case:stop(),
    Config.

%% Starts rtpengine, which exits when its pipe closes.
relayed({_, Port}) ->
    Words = ["rtpengine", "--foreground", "--log-stderr", "--log-level=4", "--config-file=none", "--table=-1", "--delete-delay=0",
             "--interface=inside/127.0.0.1", "--interface=outside/127.0.0.2", "--listen-ng=127.0.0.1:" ++ integer_to_list(Port)],
    open_port({spawn_executable, "/bin/sh"}, [{args, ["-c", "\"$@\" > /dev/null 2>&1 & cat > /dev/null; kill -9 $!", "sh" | Words]}]).

end_relay(Relay) ->
    catch port_close(Relay),
    ok.

tab_for(Browser, Origin) ->
    Tab = chromium:tab(Browser),
    chromium:microphone(granted, Origin, Tab),
    %% A connection can lose packets later only if a rule about lost packets was in effect when it was made.
    ok = lose(0, Tab),
    Tab.

wait(Holds) -> lobby_case:until(Holds, ?LIMIT).

%%% Actions of members and operators.

ask(Method, Path, Body, Config) ->
    Url = proplists:get_value(origin, Config) ++ Path,
    Headers = [{"authorization", "Bearer " ++ ?OPERATOR}],
    Request = case Method of get -> {Url, Headers}; delete -> {Url, Headers}; _ -> {Url, Headers, "application/json", jiffy:encode(Body)} end,
    {ok, {{_, 200, _}, _, Text}} = httpc:request(Method, Request, [], [{body_format, binary}]),
    jiffy:decode(Text, [return_maps]).

%% Carries out an action on a member, who is given by role or name.
act(Who, Action, Body, Config) ->
    ask(post, ["/members/", id(Who, Config), $/, Action], Body, Config).

act(Who, Action, Config) -> act(Who, Action, #{}, Config).

id(Who, Config) ->
    Name = atom_to_binary(Who),
    [Id] = [Id || #{<<"id">> := Id, <<"role">> := Role, <<"caller">> := Caller} <- members(Config), Name =:= Role orelse Name =:= Caller],
    Id.

members(Config) ->
    case lobby_room:exists(<<"100">>) of
        true -> maps:get(<<"members">>, ask(get, "/rooms/100", none, Config));
        false -> []
    end.

%% Starts two phones, one after the other, whose names become their roles.
phones(Config) ->
    [begin
         Known = [Id || #{<<"id">> := Id} <- members(Config)],
         Said = tones:packet(map_get(Who, ?TALKERS), 4000),
         _ = phone:automatic(proplists:get_value(sip, Config), "100", fun() -> caller:start(Said, fun(Packet) -> keep(Who, Packet) end) end),
         wait(fun() -> length(members(Config)) > length(Known) end),
         [Id] = [Id || #{<<"id">> := Id} <- members(Config), not lists:member(Id, Known)],
         ask(post, ["/members/", Id, "/role"], #{role => Who}, Config)
     end || Who <- [first, second]].

link_to(Role, Config) -> link_to(Role, <<"100">>, 600, Config).

link_to(Role, Room, Seconds, Config) ->
    ask(post, "/links", #{room => Room, role => Role, name => Role, seconds => Seconds}, Config).

open(#{<<"link">> := Token}, Tab, Config) ->
    chromium:open([proplists:get_value(origin, Config), "/join#", Token], Tab).

%% Joins by keyboard alone.
join(Link, Tab, Config) ->
    open(Link, Tab, Config),
    says(<<"Your browser will ask for your microphone.">>, Tab),
    chromium:key("Tab", Tab),
    chromium:key("Enter", Tab).

joined(Link, Tab, Config) ->
    join(Link, Tab, Config),
    says(<<"You are in the room.">>, Tab).

%% Waits until a page contains a text.
says(Text, Tab) ->
    try wait(fun() -> binary:match(chromium:text(Tab), Text) =/= nomatch end)
    catch error:{not_within_ms, _} -> error({says, chromium:text(Tab), instead_of, Text})
    end.

%%% Who hears whom.

%% Stores the talkers in a packet.
keep(Who, Packet) ->
    Pitches = tones:pitches(Packet, maps:values(?TALKERS)),
    ets:insert(heard, {{Who, marked()}, [Other || {Other, Pitch} <- maps:to_list(?TALKERS), lists:member(Pitch, Pitches)]}).

marked() -> erlang:unique_integer([monotonic, positive]).

%% Stores the talkers in the packets that the pages have received.
listen(Config) ->
    [keep(Who, Packet) || Who <- [coach, customer], Packet <- chromium:packets(proplists:get_value(Who, Config))].

%% Returns the talkers in each packet that a member has received since a mark.
heard(Who, Since) ->
    ets:select(heard, [{{{Who, '$1'}, '$2'}, [{'>', '$1', Since}], ['$2']}]).

%% Returns the talkers in each of the last packets that a member has received.
last(Who) ->
    Heard = heard(Who, 0),
    lists:nthtail(max(0, length(Heard) - ?PACKETS), Heard).

%% Waits until each member hears exactly the wanted talkers: each of them in most of the last packets, and no other
%% talkers in any. Then waits for as many packets again, and searches them, too.
hear(Wanted, Config) ->
    try wait(fun() -> listen(Config), lists:all(fun is_hearing/1, maps:to_list(Wanted)) end)
    catch error:{not_within_ms, _} -> error({heard, maps:map(fun(Who, _) -> counted(last(Who)) end, Wanted), instead_of, Wanted})
    end,
    Since = marked(),
    wait(fun() -> listen(Config), lists:all(fun(Who) -> length(heard(Who, Since)) >= ?PACKETS end, maps:keys(Wanted)) end),
    ?assertEqual([], [{Who, Others} || {Who, Talkers} <- maps:to_list(Wanted), Heard <- heard(Who, Since), Others <- [Heard -- Talkers], Others =/= []]).

is_hearing({Who, Talkers}) ->
    #{all := All} = Counts = counted(last(Who)),
    All =:= ?PACKETS andalso lists:all(fun({Other, Count}) ->
        case lists:member(Other, Talkers) of true -> Count > ?PACKETS div 2; false -> Count =:= 0 end
    end, maps:to_list(maps:remove(all, Counts))).

%% Returns the number of packets, and how many of them contain each talker.
counted(Packets) ->
    maps:from_list([{all, length(Packets)} | [{Who, length([x || Packet <- Packets, lists:member(Who, Packet)])} || Who <- maps:keys(?TALKERS)]]).

tab(Who, Config) -> proplists:get_value(Who, Config).

%% Puts all four members into a coaching room. Returns the links.
all_in(Config) ->
    _ = ask(put, "/rooms/100", #{preset => coaching}, Config),
    phones(Config),
    Links = [{Who, link_to(Who, Config)} || Who <- [coach, customer]],
    [joined(Link, tab(Who, Config), Config) || {Who, Link} <- Links],
    hear(coached(), Config),
    maps:from_list(Links).

coached() ->
    #{first => [second, coach, customer], second => [first, coach, customer], coach => [first, second, customer], customer => [first, second]}.

%% Returns the flows of the coaching room if the members `Unheard' aren't heard, and the members `Deaf' hear nobody.
without(Unheard, Deaf) -> maps:map(fun(Who, Talkers) -> case lists:member(Who, Deaf) of true -> []; false -> Talkers -- Unheard end end, coached()).

%% Checks that no packet since a mark contains this talker.
never(Listener, Talker, Since) -> ?assertEqual([], [Talkers || Talkers <- heard(Listener, Since), lists:member(Talker, Talkers)]).

who_hears_whom(Config) ->
    _ = all_in(Config),
    [Coach, Customer] = [tab(Who, Config) || Who <- [coach, customer]],
    ?assertNotEqual(nomatch, binary:match(chromium:text(Coach), <<"Room 100, as coach">>)),
    wait(fun() -> chromium:value("document.getElementById('level').value > 0.1", Coach) end),
    wait(fun() -> chromium:value("!audio.paused && audio.currentTime > 0", Coach) end),
    %% The customer mutes the microphone with the button that has the focus.
    chromium:key("Enter", Customer),
    hear(without([customer], []), Config),
    ?assertEqual(<<"Unmute">>, chromium:value("document.activeElement.innerText", Customer)),
    chromium:key("Space", Customer),
    hear(coached(), Config),
    %% The page doesn't show that the coach is isolated, unless that is configured.
    act(coach, "isolate", Config),
    hear(without([coach], [coach]), Config),
    says(<<"You are in the room.">>, Coach),
    ok = application:set_env(lobby, show_isolation, true),
    says(<<"You are isolated: nobody hears you.">>, Coach),
    ok = application:set_env(lobby, show_isolation, false),
    says(<<"You are in the room.">>, Coach),
    act(first, "isolate", Config),
    hear(without([coach, first], [coach, first]), Config),
    Since = marked(),
    act(coach, "release", Config),
    act(customer, "mute", Config),
    hear(without([customer, first], [first]), Config),
    [never(Listener, first, Since) || Listener <- [second, coach, customer]],
    never(customer, coach, 0).

%% The link still has one member if the member joins again from another browser, or after leaving.
a_link_has_one_member(Config) ->
    #{coach := Link} = all_in(Config),
    [Coach, Customer] = [tab(Who, Config) || Who <- [coach, customer]],
    act(coach, "mute", Config),
    act(coach, "isolate", Config),
    hear(without([coach], [coach]), Config),
    Since = marked(),
    Origin = proplists:get_value(origin, Config),
    Other = tab_for(Customer, Origin),
    joined(Link, Other, Config),
    says(<<"You have joined from another browser.">>, Coach),
    ?assertEqual(4, length(members(Config))),
    hear(maps:remove(coach, without([coach], [coach])), Config),
    wait(fun() -> [keep(other, Packet) || Packet <- chromium:packets(Other)], length(heard(other, 0)) >= ?PACKETS end),
    ?assertEqual([], [Talkers || Talkers = [_ | _] <- heard(other, 0)]),
    joined(Link, Coach, Config),
    says(<<"You have joined from another browser.">>, Other),
    chromium:close(Other),
    hear(without([coach], [coach]), Config),
    %% The coach hangs up.
    chromium:key("Tab", Coach),
    chromium:key("Enter", Coach),
    says(<<"You have hung up.">>, Coach),
    wait(fun() -> length(members(Config)) =:= 3 end),
    joined(Link, Coach, Config),
    hear(without([coach], [coach]), Config),
    [never(Listener, coach, Since) || Listener <- [first, second, customer]],
    act(coach, "release", Config),
    hear(without([coach], []), Config),
    act(coach, "unmute", Config),
    hear(coached(), Config),
    %% The coach closes the page.
    chromium:open("about:blank", Coach),
    wait(fun() -> length(members(Config)) =:= 3 end),
    never(customer, coach, 0).

%% Browsers join again after a loss of the network or of rtpengine. Isolation and mute persist.
what_is_lost_is_joined_again(Config) ->
    _ = all_in(Config),
    [Coach, Customer] = [tab(Who, Config) || Who <- [coach, customer]],
    act(second, "isolate", Config),
    act(coach, "mute", Config),
    Quiet = without([coach, second], [second]),
    hear(Quiet, Config),
    Since = marked(),
    ok = lose(100, Customer),
    says(<<"The connection was lost. It is made again.">>, Customer),
    ok = lose(0, Customer),
    says(<<"You are in the room.">>, Customer),
    hear(Quiet, Config),
    Made = [{Tab, chromium:value("made", Tab)} || Tab <- [Coach, Customer]],
    ok = end_relay(tab(relay, Config)),
    %% Each page tries once in vain to join again, and its member stays in the room.
    [wait(fun() -> chromium:value("made", Tab) >= Before + 2 end) || {Tab, Before} <- Made],
    ?assertEqual(4, length(members(Config))),
    [says(<<"The connection was lost. It is made again.">>, Tab) || Tab <- [Coach, Customer]],
    Relay = relayed(tab(ng, Config)),
    [says(<<"You are in the room.">>, Tab) || Tab <- [Coach, Customer]],
    hear(Quiet, Config),
    [never(Listener, Talker, Since) || Listener <- [first, coach, customer], Talker <- [coach, second]],
    ok = end_relay(Relay).

%% Makes a page lose this percentage of its packets.
lose(Percent, Tab) ->
    Conditions = #{urlPattern => <<>>, latency => 0, downloadThroughput => -1, uploadThroughput => -1, packetLoss => Percent},
    _ = chromium:ask("Network.emulateNetworkConditionsByRule", #{offline => false, matchedNetworkConditions => [Conditions]}, Tab),
    ok.

%% The customer waits, hears nobody and isn't heard, until an operator lets the customer in.
a_door(Config) ->
    _ = ask(put, "/rooms/100", #{preset => plain, door => true}, Config),
    phones(Config),
    [act(Who, "let_in", #{role => Who}, Config) || Who <- [first, second]],
    Customer = tab(customer, Config),
    join(Link = link_to(customer, Config), Customer, Config),
    says(<<"You wait until somebody lets you in.">>, Customer),
    hear(#{first => [second], second => [first]}, Config),
    ?assertEqual([], [Talkers || Talkers = [_ | _] <- heard(customer, 0)]),
    act(customer, "let_in", #{role => customer}, Config),
    says(<<"You are in the room.">>, Customer),
    All = #{first => [second, customer], second => [first, customer], customer => [first, second]},
    hear(All, Config),
    joined(Link, Customer, Config),
    hear(All, Config).

why_nobody_gets_in(Config) ->
    [Coach, Customer] = [tab(Who, Config) || Who <- [coach, customer]],
    Origin = proplists:get_value(origin, Config),
    Link = #{<<"number">> := Number} = link_to(coach, Config),
    %% While one page waits for packets, the other page is rejected.
    ok = lose(100, Coach),
    join(Link, Coach, Config),
    Refused = fun(Text, Bad) -> join(Bad, Customer, Config), says(Text, Customer) end,
    _ = ask(put, "/rooms/locked", #{preset => plain}, Config),
    _ = ask(post, "/rooms/locked/lock", #{}, Config),
    Refused(<<"The room is locked.">>, link_to(customer, <<"locked">>, 600, Config)),
    [{ok, _} = people:join(<<"full">>, integer_to_binary(N), <<"agent">>) || N <- lists:seq(1, 64)],
    Refused(<<"The room is full.">>, link_to(customer, <<"full">>, 600, Config)),
    chromium:microphone(denied, Origin, Customer),
    Refused(<<"The browser isn't allowed to use a microphone. Allow it, and join again.">>, Link),
    chromium:microphone(granted, Origin, Customer),
    Short = link_to(customer, <<"100">>, 1, Config),
    wait(fun() -> open(Short, Customer, Config), binary:match(chromium:text(Customer), <<"The link has expired.">>) =/= nomatch end),
    ?assert(chromium:value("document.getElementById('join').disabled", Customer)),
    open(#{<<"link">> => <<"00.00">>}, Customer, Config),
    says(<<"The link isn't valid.">>, Customer),
    says(<<"No way for the sound was found: a firewall may block UDP.">>, Coach),
    ok = lose(0, Coach),
    joined(Link, Coach, Config),
    %% An operator ends the coach's call, and the coach joins again, until the link is revoked.
    act(coach, "hang_up", Config),
    says(<<"You are no longer in the room.">>, Coach),
    joined(Link, Coach, Config),
    act(coach, "hang_up", #{revoke => true}, Config),
    says(<<"The link has been revoked.">>, Coach),
    open(Link, Coach, Config),
    says(<<"The link has been revoked.">>, Coach),
    _ = ask(delete, ["/links/", Number], none, Config),
    ?assertEqual([], members(Config)).

%% The page works with a screen reader, on a phone, and in the dark.
the_page_is_for_everybody(Config) ->
    Coach = tab(coach, Config),
    _ = chromium:ask("Emulation.setDeviceMetricsOverride", #{width => 390, height => 844, deviceScaleFactor => 1, mobile => true}, Coach),
    [begin
         _ = chromium:ask("Emulation.setEmulatedMedia", #{features => [#{name => <<"prefers-color-scheme">>, value => Scheme}]}, Coach),
         joined(link_to(coach, Config), Coach, Config),
         ?assertEqual([{<<"button">>, <<"Hang up">>}, {<<"button">>, <<"Mute">>}, {<<"meter">>, <<"Your microphone">>}, {<<"status">>, <<>>}],
                      read_out([<<"button">>, <<"meter">>, <<"status">>], Coach)),
         ?assert(chromium:value("document.documentElement.scrollWidth <= 390", Coach)),
         ?assertMatch({_, Contrast} when Contrast >= 4.5, {Scheme, chromium:value(contrast(), Coach)})
     end || Scheme <- [light, dark]].

%% Returns the roles and names that a screen reader announces, for these roles.
read_out(Roles, Tab) ->
    #{<<"nodes">> := Nodes} = chromium:ask("Accessibility.getFullAXTree", #{}, Tab),
    lists:sort([{Role, string:trim(maps:get(<<"value">>, maps:get(<<"name">>, Node, #{}), <<>>))}
                || Node = #{<<"ignored">> := false, <<"role">> := #{<<"value">> := Role}} <- Nodes, lists:member(Role, Roles)]).

%% Returns a script that computes the lowest contrast between a text and its background (WCAG 2, 1.4.3).
contrast() ->
    "(() => { const light = color => { const [r, g, b] = color.match(/[0-9.]+/g).map(it => it / 255)
       .map(it => it <= 0.04045 ? it / 12.92 : ((it + 0.055) / 1.055) ** 2.4); return 0.2126 * r + 0.7152 * g + 0.0722 * b; };
     const behind = it => { for (; it; it = it.parentElement) { const color = getComputedStyle(it).backgroundColor;
       if (!color.endsWith(', 0)')) return color; } return 'rgb(255, 255, 255)'; };
     return Math.min(...[...document.querySelectorAll('body *')].filter(it => it.checkVisibility() && [...it.childNodes].some(
       child => child.nodeType === 3 && child.data.trim())).map(it => { const [a, b] = [light(getComputedStyle(it).color), light(behind(it))]
         .sort((a, b) => b - a); return (a + 0.05) / (b + 0.05); })); })()".
