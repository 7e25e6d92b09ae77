#!/usr/bin/env bash
# Draws docs/house.png from crates.txt: the crates in six groups, and an arrow from each to those that stand on it (but
# for arrows that follow from others, and the crates of tests). It needs graphviz. usage: docs/house.sh
set -eu
here=$(cd "$(dirname "${BASH_SOURCE[0]}")" && pwd)
declare -A group_of=()
while read -r group crates; do
    for crate in $crates; do group_of[$crate]=$group; done
done <<'GROUPS'
base keyed_hash rate_types json_text rate_io text_lines proto_json
counters window_keys told_list config_versions counter_cells counter_directory over_cache line_numbers
checks descriptor_tree config_json rule_lookup rls_core rule_stats shared_stats prometheus_text rate_limiter reply_text request_tokens run_lines script_run script_lines run_stats script_text worker_run drive_run load_gen run_text run_audit
connections http_front http_endpoint counted_checks http_checks http_serve http_limiter link_handover conn_tasks mio_links serve_tasks limiter_tasks
quota agenda quota_bucket quota_settings quota_settings_json quota_buckets quota_lines quota_stream quota_pools quota_server
faces command_words cli_exits cli_lookup cli_quota cli_audit cli_serve cli_drive ratelimit_cli ratelimit
GROUPS
declare -A title_of=([base]='base' [counters]='counters' [checks]='rules and checks' [connections]='connections' [quota]='quota' [faces]='faces')
declare -A colour_of=([base]='#e8e8e8' [counters]='#dbe9f6' [checks]='#e3f1dc' [connections]='#e6e1f4' [quota]='#fbeed5' [faces]='#f3dfe9')
graph() {
    printf 'digraph house {\n rankdir=BT; nodesep=0.25; ranksep=0.45;\n'
    printf ' node [shape=box, style="filled,rounded", fontname="Helvetica", fontsize=11];\n edge [arrowsize=0.6, color="#666666"];\n'
    for group in base counters checks connections quota faces; do
        printf ' subgraph cluster_%s { label="%s"; labelloc="b"; fontname="Helvetica"; fontsize=12; color="#aaaaaa";\n' "$group" "${title_of[$group]}"
        for crate in "${!group_of[@]}"; do
            [ "${group_of[$crate]}" != "$group" ] || printf '  %s [fillcolor="%s"];\n' "$crate" "${colour_of[$group]}"
        done
        printf ' }\n'
    done
    while IFS=: read -r head words; do
        crate=${head%% *}
        case $crate in *_tests) continue ;; esac
        [ -n "${group_of[$crate]:-}" ] || { printf '%s has no group\n' "$crate" >&2; exit 1; }
        for low in $words; do
            [ -z "${group_of[$low]:-}" ] || printf ' %s -> %s;\n' "$low" "$crate"
        done
    done < <(sed 's/#.*//' "$here/../crates.txt" | grep :)
    printf '}\n'
}
graph | tred | dot -Tpng -Gdpi=90 -Gsize=14,14 >"$here/house.png"
