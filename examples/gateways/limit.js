// Asks the limiter before the request goes to the application.
async function check(r) {
    const asked = r.headersIn['X-User'] || '';
    const user = /^[A-Za-z0-9_.@-]{1,64}$/.test(asked) ? asked : 'anonymous';
    const body = JSON.stringify({ domain: 'demo', descriptors: [{ entries: [{ key: 'user', value: user }] }] });
    const res = await r.subrequest('/_limit', { method: 'POST', body });
    // Other answers decide nothing: the request passes. To answer 503 then, add a case for what isn't 200.
    if (res.status === 429) {
        r.headersOut['Content-Type'] = 'text/plain';
        r.return(429, 'too many requests\n');
        return;
    }
    r.internalRedirect('@app');
}
export default { check };
