import java.net.URI;
import java.net.http.HttpClient;
import java.net.http.HttpRequest;
import java.net.http.HttpResponse;
import java.nio.file.Files;
import java.nio.file.Path;
import java.util.regex.Matcher;
import java.util.regex.Pattern;

/** The calls of tools/http_clients.py by Java's java.net.http as it stands, which asks for HTTP/2 by an upgrade. Usage: BASE GATE GOOD BAD */
public class Plain {
    static final HttpClient CLIENT = HttpClient.newHttpClient();

    static HttpResponse<String> post(String address, String bearer, String body) throws Exception {
        HttpRequest.Builder request = HttpRequest.newBuilder(URI.create(address))
            .header("Content-Type", "application/x-www-form-urlencoded").POST(HttpRequest.BodyPublishers.ofString(body));
        if (bearer != null) {
            request.header("Authorization", "Bearer " + bearer);
        }
        return CLIENT.send(request.build(), HttpResponse.BodyHandlers.ofString());
    }

    static String found(String pattern, String text) {
        Matcher matcher = Pattern.compile(pattern).matcher(text);
        return matcher.find() ? matcher.group(1) : "";
    }

    public static void main(String[] words) throws Exception {
        HttpResponse<String> good = post(words[0] + "/v1/token", null, Files.readString(Path.of(words[2])));
        String token = found("\"access_token\":\"([^\"]*)\"", good.body());
        System.out.println("exchange " + good.statusCode() + " " + token);
        HttpResponse<String> bad = post(words[0] + "/v1/token", null, Files.readString(Path.of(words[3])));
        System.out.println("refused " + bad.statusCode() + " " + found("\"error_description\":\"([^\"]*)\"", bad.body()));
        for (int i = 0; i < 2; i++) {
            HttpResponse<String> told = post(words[0] + "/v1/introspect", words[1], "token=" + token);
            System.out.println("introspect " + told.statusCode() + " " + told.body().startsWith("{\"active\":true"));
        }
    }
}
