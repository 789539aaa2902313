// The run that the page's server answers.

/** It, as a run that is not in the list: its steps are made when it is shown. */
export const LIVE = Object.freeze({
    name: "page/a_server_that_reacts", title: "A server that reacts", isLive: true, cases: Object.freeze([Object.freeze({})]),
    about: "A small server in the page answers the client. Leave any packet out: a request is sent again until it is answered. Data is the "
        + "caller's to send again, who does so here after a second without an echo.",
});
