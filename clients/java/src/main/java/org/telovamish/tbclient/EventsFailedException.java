package org.telovamish.tbclient;

import java.util.List;

/** Events of a batch were not accepted. The others were executed. */
public final class EventsFailedException extends ClientException {
    private static final long serialVersionUID = 1L;
    private static final int SHOWN = 10; // failed events in the text

    /** Which, and why. */
    private final transient List<EventResult<?>> results;

    EventsFailedException(List<EventResult<?>> results) {
        super(said(results));
        this.results = results;
    }

    /**
     * Which events failed, and why by name.
     *
     * @return their results, by rising index; null of an exception that was serialized
     */
    public List<EventResult<?>> results() {
        return results;
    }

    private static String said(List<EventResult<?>> results) {
        StringBuilder text = new StringBuilder();
        for (EventResult<?> it : results.subList(0, Math.min(SHOWN, results.size()))) {
            String comma = text.length() == 0 ? "" : ", ";
            text.append(comma).append("event ").append(it.index()).append(": ");
            text.append(it.result().label());
        }
        int more = results.size() - SHOWN;
        return more > 0 ? text + ", and " + more + " more" : text.toString();
    }
}
