-- Asks the limiter; its status is in txn.limit_status, 0 where there was none.
core.register_action("limit", { "http-req" }, function(txn)
  local user = txn.sf:req_hdr("x-user")
  if not user or #user > 64 or not user:match("^[%w_.@-]+$") then user = "anonymous" end
  local body = '{"domain":"demo","descriptors":[{"entries":[{"key":"user","value":"' .. user .. '"}]}]}'
  local res = core.httpclient():post{ url = "http://127.0.0.1:8081/json", body = body, timeout = 500,
    headers = { ["content-type"] = { "application/json" }, ["content-length"] = { tostring(#body) } } }
  txn:set_var("txn.limit_status", res and res.status or 0)
end, 0)
